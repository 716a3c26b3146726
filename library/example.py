#!/usr/bin/env python3
"""The library from Python, by ctypes: a frame to slots and back, a session to its listing, a controller slot by slot.

Usage: library/example.py [SESSION]    (SESSION: a recorded session; examples/wiper.session)

It loads library/out/libfrapmast.so, which `library/build` builds (Linux on x86-64), by library/frapmast.py, the module
that makes the calls. library/frapmast.h says what each call answers.
"""
import os
import sys

from frapmast import SHARED, TOP, Controller, Refused, decode, encode, load, play


def told(frame):
    identifier, command, data, acknowledge = frame
    present = "present" if acknowledge else "absent"
    return f"identifier {identifier:03X}, command {command:04b}, data {data.hex(' ').upper()}, acknowledge {present}"


def receiver(library):
    """A controller whose channel 3 takes identifier 8C4 into the mailbox at 0x90; ROK interrupts; the line is free."""
    model = Controller(library)
    model.reset()
    for address, value in [(0x28, 0x8C), (0x29, 0x4D), (0x2A, 0x10), (0x2B, 0x20), (0x2E, 0xFF), (0x2F, 0xF0)]:
        model.write(address, value)
    model.write(0x0B, 0x80)  # RST is seen
    model.write(0x0A, 0x02)  # ROK shall interrupt
    model.write(0x03, 0x10)  # active
    for _ in range(12):
        model.slot(7)
    return model


def received(library, frame):
    """The frame slot by slot, its acknowledge left to the model: a slot is dominant where the sender or the model is."""
    model, driven, bus = receiver(library), 1, []
    asserted = model.interrupt()
    for place, level in enumerate(encode(library, *frame[:3], False)):
        bus.append(level & driven)
        driven = model.slot(7 if bus[-1] else 0)
        if driven == 0:
            print(f"slot {place}: the model drives 0 in the next slot, the acknowledge")
    status, stored = model.read(0x2B), bytes(model.read(0x90 + k) for k in range(4))
    lines = asserted, model.interrupt()
    print(f"channel 3: {status:02X}, mailbox: {stored.hex(' ').upper()}, interrupt: {lines[0]}, then {lines[1]}")
    whole = decode(library, bytes(bus)) == frame
    return whole and (status, stored, *lines) == (0x21, b"\x83" + frame[2], False, True)


def main(words):
    if words[:1] in (["-h"], ["--help"]):
        print(__doc__.strip())
        return
    if len(words) > 1:
        sys.exit(__doc__.strip())
    if not os.path.exists(SHARED):
        sys.exit(f"example.py: there is no {SHARED}: `library/build` builds it")
    path = words[0] if words else os.path.join(TOP, "examples", "wiper.session")
    try:
        with open(path, "rb") as file:
            session = file.read()
    except OSError as why:
        sys.exit(f"example.py: {path}: {why.strerror}")
    library = load(SHARED)

    frame = (0x8C4, 0b1100, bytes([0x8A, 0x21, 0x40]), True)
    slots = encode(library, *frame)
    back = decode(library, slots)
    print("frame:  ", told(frame))
    print("slots:  ", "".join(str(level) for level in slots))
    print("decoded:", told(back))
    try:
        encode(library, 0x1000, *frame[1:])
    except Refused as why:
        print("identifier 1000: refused,", why)
    lines = play(library, session).splitlines()
    print("session:", path)
    print(f"listing: lines {len(lines)}, the first `{lines[0]}`, the last `{lines[-1]}`")
    if back != frame:
        sys.exit("example.py: the frame decoded is not the one encoded")
    if not received(library, frame):
        sys.exit("example.py: the controller did not take the frame")


if __name__ == "__main__":
    main(sys.argv[1:])
