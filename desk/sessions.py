"""Sessions as events. This module is not proved. Where a session breaks is what the proved player's listing says.

docs/SESSION.md has the file format.
"""
import re
import sys

import frapmast
from bench_session import MARK, READ, RESET, SLOT, WRITE, number

NAMES = {RESET: "reset", WRITE: "write", READ: "read", SLOT: "slot", MARK: "mark"}
OPERANDS = {RESET: 0, WRITE: 2, READ: 1, SLOT: 1, MARK: 1}
FAULTS = {30: "a number is cut", 31: "a number is not in its shortest form", 32: "a number is above 65,535", 33: "the version is not 1",
        34: "the count is above 4,096", 35: "the kind of an event is above 4", 36: "bytes are left over after the last event"}
MOST_READ = 65536  # bytes that the player reads
BAD = re.compile(r"bad (\d+) at (\d+) after (\d+)")


class Trouble(Exception):
    """Nothing could be done; the words say why. The exit status is 2."""


class Event:
    """An event: its kind, its numbers, and the places of its first byte and behind its last one."""

    def __init__(self, kind, numbers, first, behind):
        self.kind, self.numbers, self.first, self.behind = kind, numbers, first, behind

    def bytes(self):
        return b"".join(number(n) for n in [self.kind] + self.numbers)


class Played:
    """A session as it was played: its bytes, the lines of its listing, its events, and how it ended."""

    def __init__(self, library, session):
        self.session = session
        self.lines = frapmast.play(library, session[:MOST_READ]).splitlines()
        self.last = self.lines[-1]
        self.bad = tuple(int(n) for n in BAD.fullmatch(self.last).groups()) if BAD.fullmatch(self.last) else None
        self.count = int(self.lines[0].split()[1]) if self.lines[0].startswith("events ") else None
        self.answers = self.lines[1:-1]
        self.events, self.behind = events(session, len(self.answers), self.count is not None)


def one(session, at):
    """The number at a place where a good one is, and the place behind it."""
    value = shift = 0
    while True:
        value |= (session[at] & 0x7F) << shift
        shift += 7
        at += 1
        if session[at - 1] < 0x80:
            return value, at


def events(session, count, header):
    """The first events, which the player has read, and the place behind them."""
    at, found = 0, []
    for _ in range(2 if header else 0):
        _, at = one(session, at)
    for _ in range(count):
        first = at
        kind, at = one(session, at)
        numbers = []
        for _ in range(OPERANDS[kind]):
            value, at = one(session, at)
            numbers.append(value)
        found.append(Event(kind, numbers, first, at))
    return found, at


def broken(played):
    """What the last line of a broken session says, in words."""
    fault, place, looked = played.bad
    there = played.session[place:place + max(looked, 1)].hex(" ").upper()
    if not there:
        words = f"the file ends at offset {place}"
    else:
        words = f"at offset {place}: {there}" + (", and the file ends" if fault == 30 else "")
    if played.count is not None and fault != 36:
        words += f"; in event {len(played.events)}"
    if fault == 33 and re.fullmatch(rb"[\t\r\n -~]+", played.session[:64]):
        words += "; is it a text? `./frapmast session` makes a session of one"
    return f"{FAULTS[fault]}; {words}"


def content(path, most=1):
    """The bytes of a file, or of standard input for `-`; most: the largest size, in MiB."""
    if path == "-" and sys.stdin is None:
        raise Trouble("standard input is closed")
    try:
        if path == "-":
            data = sys.stdin.buffer.read((most << 20) + 1)
        else:
            with open(path, "rb") as file:
                data = file.read((most << 20) + 1)
    except OSError as why:
        raise Trouble(f"{path}: {why.strerror}")
    if len(data) > most << 20:
        raise Trouble(f"{path}: it is longer than {most} MiB")
    return data
