"""Sessions as text, and text as sessions. This is not proved: the codec of libfrapmast.so makes and finds the frames, and the proved player
says where a session breaks. docs/TOOLS.md has the lines.
"""
import re

import frapmast

from .frames import frame_at
from .sessions import MARK, READ, RESET, SLOT, WRITE, Event, Played, Trouble, broken, number

MOST_EVENTS, MOST_NUMBER = 4096, 65535
INPUTS = {"RxD0": 1, "RxD1": 2, "RxD2": 4}
ALL = 7
ROW, READS, BYTES, NUMBERS = 60, 16, 32, 20  # of a line, at most
BYTE_ORDER_MARK = b"\xEF\xBB\xBF"
SHORT = 4  # slots of one row that are not worth a line of their own


# ---- a session to text


def text_of(library, session):
    """The lines of a session, and whether it is good."""
    played = Played(library, session)
    if played.count is None:
        return ["# " + ending(played), "no header"] + byte_lines(session), False
    lines = [f"events {played.count}"] if played.count != len(played.events) else []
    lines += event_lines(library, played.events)
    if played.bad:
        lines += ["# " + ending(played)] + byte_lines(session[played.behind:])
    return lines, not played.bad


def ending(played):
    return f"{played.last}: {broken(played)}"


def byte_lines(data):
    return ["bytes " + data[k:k + BYTES].hex(" ").upper() for k in range(0, len(data), BYTES)]


def event_lines(library, events):
    lines, at = [], 0
    while at < len(events):
        behind = at
        while behind < len(events) and events[behind].kind == events[at].kind:
            behind += 1
        lines += same_kind(library, events[at].kind, [event.numbers for event in events[at:behind]])
        at = behind
    return lines


def same_kind(library, kind, rows):
    """The lines of neighbouring events of one kind."""
    if kind == RESET:
        return ["reset"] * len(rows)
    if kind == WRITE:
        return [f"write {address:02X} {value:02X}" for address, value in rows]
    if kind == READ:
        return packed("read", [f"{address:02X}" for address, in rows], READS)
    if kind == MARK:
        return [f"mark {n}" for n, in rows]
    return slot_lines(library, [levels for levels, in rows])


def packed(word, values, most):
    return [" ".join([word] + values[k:k + most]) for k in range(0, len(values), most)]


def slot_lines(library, levels):
    """Neighbouring slots as lines: quiet ones, frames, rows, and what is too short for these as numbers."""
    lines, single, at = [], [], 0
    while at < len(levels):
        behind, words = stretch(library, levels, at)
        if words is None:
            single += [str(n) for n in levels[at:behind]]
        else:
            lines += packed("slot", single, NUMBERS) + words
            single = []
        at = behind
    return lines + packed("slot", single, NUMBERS)


def stretch(library, levels, at):
    """The slots from a place on that make one line or a few: where they end, and their lines, or none where they are short."""
    if levels[at] == ALL:
        behind = run(levels, at, {ALL})
        return behind, [f"quiet {behind - at}"] if behind - at >= SHORT else None
    if levels[at] > ALL:
        return at + 1, None
    inputs = ALL - levels[at]
    row = [int(n == ALL) for n in levels[at:run(levels, at, {ALL, levels[at]})]]
    frame, length = frame_at(library, row)
    if frame:
        return at + length, [frame_line(*frame) + on(inputs)]
    pause = next((k for k in range(len(row)) if row[k:k + 8] == [1] * 8), len(row))
    if pause < SHORT:
        return at + pause, None
    digits = "".join(map(str, row[:pause]))
    return at + pause, [f"slots {digits[k:k + ROW]}{on(inputs)}" for k in range(0, pause, ROW)]


def run(levels, at, allowed):
    return next((k for k in range(at, len(levels)) if levels[k] not in allowed), len(levels))


def frame_line(identifier, command, data, acknowledge):
    return " ".join(["frame", f"{identifier:03X}", f"{command:X}"] + [f"{n:02X}" for n in data] + ["ack" if acknowledge else "noack"])


def on(inputs):
    return "" if inputs == ALL else " on " + " ".join(name for name, bit in INPUTS.items() if inputs & bit)


# ---- text to a session


class WrongText(Trouble):
    """A fault of a text: its line and column, from 1."""


class Word:
    def __init__(self, text, line, column):
        self.text, self.line, self.column = text, line, column

    def wrong(self, words):
        return WrongText(f"line {self.line}, column {self.column}: {words}")

    def value(self, base, most=MOST_NUMBER):
        kind = {16: "a hexadecimal number", 10: "a number"}[base]
        digits = {16: "[0-9A-Fa-f]+", 10: "[0-9]+"}[base]
        if not re.fullmatch(digits, self.text):
            raise self.wrong(f"`{self.text}`: {kind} is due")
        if len(self.text.lstrip("0")) > 6 or int(self.text, base) > most:
            raise self.wrong(f"`{self.text}`: the largest number here is " + (f"{most:X}" if base == 16 else f"{most:,}"))
        return int(self.text, base)


class Builder:
    """The session that lines of text make."""

    def __init__(self, library):
        self.library, self.body, self.count = library, [], 0
        self.stated, self.header = None, True

    def bytes(self):
        head = number(1) + number(self.count if self.stated is None else self.stated) if self.header else b""
        return head + b"".join(self.body)

    def add(self, kind, *numbers):
        self.body.append(Event(kind, list(numbers), 0, 0).bytes())
        self.count += 1

    def line(self, first, words):
        """One line: its first word, and the others."""
        calls = {"reset": self.reset, "write": self.write, "read": self.read, "slot": self.slot, "slots": self.slots, "frame": self.frame,
                 "quiet": self.quiet, "mark": self.mark, "events": self.events, "bytes": self.raw, "no": self.no_header}
        if first.text not in calls:
            raise first.wrong(f"`{first.text}`: a line begins with one of " + ", ".join(calls) + " header")
        calls[first.text](first, words)
        if self.stated is None and self.header and self.count > MOST_EVENTS:
            raise first.wrong(f"with this line there are {self.count:,} events; a session has at most {MOST_EVENTS:,}")

    def reset(self, first, words):
        exactly(first, words, 0, "")
        self.add(RESET)

    def write(self, first, words):
        exactly(first, words, 2, "an address and a value are due")
        self.add(WRITE, words[0].value(16), words[1].value(16))

    def read(self, first, words):
        for word in some(first, words, "an address is due"):
            self.add(READ, word.value(16))

    def slot(self, first, words):
        for word in some(first, words, "the levels of a slot are due: RxD0 + 2 RxD1 + 4 RxD2"):
            self.add(SLOT, word.value(10))

    def slots(self, first, words):
        words, inputs = inputs_of(words)
        for word in some(first, words, "a row of 0 and 1 is due"):
            if not re.fullmatch("[01]+", word.text):
                raise word.wrong(f"`{word.text}`: a row of 0 and 1 is due")
            self.levels([int(digit) for digit in word.text], inputs)

    def levels(self, row, inputs):
        for level in row:
            self.add(SLOT, ALL if level else ALL - inputs)

    def frame(self, first, words):
        words, inputs = inputs_of(words)
        words, piece = piece_of(words)
        if len(words) < 2:
            raise behind(first, words).wrong("an identifier and a command are due")
        acknowledge = words[-1].text == "ack"
        data = words[2:-1] if words[-1].text in ("ack", "noack") else words[2:]
        if len(data) > frapmast.MOST_BYTES:
            raise data[frapmast.MOST_BYTES].wrong("a frame has at most 30 data bytes")
        content = bytes(word.value(16, 0xFF) for word in data)
        slots = frapmast.encode(self.library, words[0].value(16, 0xFFF), words[1].value(16, 0xF), content, acknowledge)
        if piece and piece[1].value(10) > len(slots):
            raise piece[1].wrong(f"`{piece[1].text}`: this frame has {len(slots)} slots")
        if piece:
            place = piece[1].value(10)
            slots = slots[:place] if piece[0].text == "first" else slots[place:]
        self.levels(slots, inputs)

    def quiet(self, first, words):
        exactly(first, words, 1, "a number of recessive slots is due")
        self.levels([1] * words[0].value(10, MOST_EVENTS), ALL)

    def mark(self, first, words):
        exactly(first, words, 1, "the number of the mark is due")
        self.add(MARK, words[0].value(10))

    def events(self, first, words):
        exactly(first, words, 1, "the count of the header is due")
        if self.body or self.stated is not None or not self.header:
            raise first.wrong("`events` stands once, before all events, and not with `no header`")
        self.stated = words[0].value(10)

    def raw(self, first, words):
        for word in some(first, words, "bytes are due, two hexadecimal digits each"):
            if not re.fullmatch("[0-9A-Fa-f]{2}", word.text):
                raise word.wrong(f"`{word.text}`: a byte has two hexadecimal digits")
            self.body.append(bytes.fromhex(word.text))

    def no_header(self, first, words):
        if [word.text for word in words] != ["header"]:
            raise behind(first, []).wrong("`no header` is due")
        if self.body or self.stated is not None or not self.header:
            raise first.wrong("`no header` stands once, before all else")
        self.header = False


def behind(first, words):
    """The place behind the last word of a line, where something is missing."""
    last = words[-1] if words else first
    return Word("", last.line, last.column + len(last.text) + 1)


def exactly(first, words, count, due):
    if len(words) < count:
        raise behind(first, words).wrong(due)
    if len(words) > count:
        raise words[count].wrong(f"`{words[count].text}`: nothing more is due here")


def some(first, words, due):
    if not words:
        raise behind(first, words).wrong(due)
    return words


def inputs_of(words):
    """The words before `on`, and the inputs behind it; all three without it."""
    place = next((k for k, word in enumerate(words) if word.text == "on"), None)
    if place is None:
        return words, ALL
    inputs = 0
    for word in some(words[place], words[place + 1:], "an input is due: RxD0, RxD1 or RxD2"):
        if word.text not in INPUTS:
            raise word.wrong(f"`{word.text}`: an input is RxD0, RxD1 or RxD2")
        inputs |= INPUTS[word.text]
    return words[:place], inputs


def piece_of(words):
    """The words before `first K` or `from K`, and these two, if they are there. Slots count from 0."""
    place = next((k for k, word in enumerate(words) if word.text in ("first", "from")), None)
    if place is None:
        return words, None
    exactly(words[place], words[place + 1:], 1, "a number of slots is due")
    return words[:place], words[place:]


def session_of(library, data):
    """The session that a text says."""
    builder = Builder(library)
    for line, row in enumerate(re.split(rb"\r\n|\n|\r", data.removeprefix(BYTE_ORDER_MARK)), 1):
        try:
            text = row.decode("utf-8")
        except UnicodeDecodeError as why:
            raise WrongText(f"line {line}, column {why.start + 1}: it is not UTF-8 text")
        words = [Word(found[0], line, found.start() + 1) for found in re.finditer(r"\S+", text.split("#")[0])]
        if words:
            builder.line(words[0], words[1:])
    return builder.bytes()
