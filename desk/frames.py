"""Frames in a trace: slots that the model follows, gathered to frames, with attempts and replies of the model. This module is not proved."""
import frapmast

from .registers import CHANNEL, RAISED, STORED

START, IDENTIFIER, COMMAND, DATA, CHECK, END_OF_DATA, ACKNOWLEDGE, END_OF_FRAME = (
    "start", "identifier", "command", "data", "check", "end of data", "acknowledge", "end of frame")
PARTS = [START, IDENTIFIER, COMMAND, DATA, CHECK, END_OF_DATA, ACKNOWLEDGE, END_OF_FRAME]
UNSURE = "data or check"  # behind the command, where no end of data has come
KINDS = {0b00: "frame", 0b01: "frame", 0b10: "reply", 0b11: "reply request"}  # by R/W and RTR


def nibbles_before(place):
    """The whole nibbles before a pair."""
    return (place - 13) // 5


def end_of_data(levels):
    """The slot in which the end of data begins: the first pair 00 where a bit and its opposite are due. None where there is none, and where it
    comes after a number of nibbles that no frame has."""
    place = next((k for k in range(13, len(levels) - 1, 5) if levels[k] == levels[k + 1] == 0), None)
    if place is None or nibbles_before(place) % 2 == 0 or not 7 <= nibbles_before(place) <= 67:
        return None
    return place


def parts(levels):
    """The part of the frame that each slot is in."""
    names = [START] * 10 + [IDENTIFIER] * 15 + [COMMAND] * 5
    end = end_of_data(levels)
    if end is None:
        names += [UNSURE] * (len(levels) - 30)
    else:
        names += [DATA] * (end - 48) + [CHECK] * 18 + [END_OF_DATA] * 2 + [ACKNOWLEDGE] * 2 + [END_OF_FRAME] * 8
    return names[:len(levels)]


def frame_at(library, levels):
    """The frame that a row of levels begins with, if the proved decoder takes it for one, and its slots."""
    for length in range(60, min(360, len(levels)) + 1, 10):
        try:
            return frapmast.decode(library, bytes(levels[:length])), length
        except frapmast.Refused:
            pass
    return None, 0


class Content:
    """What a row of slots says as a frame, as far as it goes: identifier, command, data, and whether the check is right."""

    def __init__(self, library, levels):
        end = end_of_data(levels)
        whole = max(0, len(levels) - 10) // 5 if end is None else nibbles_before(end)
        digits = ["%X" % int("".join(map(str, levels[k:k + 4])), 2) for k in range(10, 10 + 5 * whole, 5)]
        body = "".join(digits[4:] if end is None else digits[4:whole - 3])
        self.identifier, self.command = "".join(digits[:3]), "".join(digits[3:4])
        self.data = " ".join(body[k:k + 2] for k in range(0, len(body), 2))
        self.right, self.whole = None, end is not None
        if end is not None:
            due = frapmast.encode(library, int(self.identifier, 16), int(self.command, 16), bytes.fromhex(body), False)
            self.right = bytes(levels[30:end]) == due[30:end]

    def words(self):
        words = [self.identifier, self.command, self.data] + [".."] * (not self.whole)
        return " ".join(filter(None, words))

    def kind(self):
        return KINDS[int(self.command or "0", 16) & 3]


class Attempt:
    """An attempt of the model, or an immediate reply: where it began, its channel, and how it ended."""

    def __init__(self, first, channel, retries=None):
        self.first, self.channel, self.retries = first, channel, retries
        self.end = self.outcome = None  # sent, lost, failed; none while it is under way, and where it is cut off
        self.answered = False

    def under_way(self):
        return self.end is None

    def close(self, index, outcome):
        self.end, self.outcome = index, outcome


class Frame:
    """A frame that the model follows: from the slot in which RXG rises to the one in which it falls."""

    def __init__(self, library):
        self.library, self.steps = library, []
        self.attempt = self.reply = None
        self.ended = None  # good, fault, dropped, cut off, under way
        self.decoded = None  # the number that the proved decoder gives for its slots
        self.content = None

    def levels(self):
        return [step.sampled for step in self.steps]

    def layout(self):
        """The levels by which its parts go: where the model's own frame fails in a slot, what was driven there, and not the sample."""
        last = self.steps[-1]
        return self.levels()[:-1] + [last.driven if self.fails() else last.sampled]

    def parts(self):
        return parts(self.layout())

    def fails(self):
        """The model's own frame fails in its last slot."""
        return any(part and part.outcome == "failed" and not part.answered for part in (self.attempt, self.reply))

    def add(self, step):
        index = len(self.steps)
        self.steps.append(step)
        if step.begins:
            self.attempt = Attempt(index, step.before.sending & 15, step.before.sending >> 4)
        if step.replier is not None:
            self.reply = Attempt(index, step.replier)
        if self.attempt and self.attempt.under_way():
            self.judge_attempt(step, index)
        elif self.reply and self.reply.under_way():
            self.judge_reply(step, index)
        if not step.after.frame():
            self.end(step)

    def judge_attempt(self, step, index):
        if step.attempt:
            self.attempt.answered |= index == 28 and step.driven > step.sampled
        elif step.goes_on:
            self.attempt.close(index, "lost")
        else:
            self.attempt.close(index, "sent" if step.raised & RAISED["TOK"] else "failed")

    def judge_reply(self, step, index):
        if not step.goes_on:
            self.reply.close(index, "sent" if step.raised & RAISED["TOK"] else "failed")
        elif step.driven > step.sampled and parts(self.levels())[index] != ACKNOWLEDGE:
            self.reply.close(index, "lost")

    def end(self, step):
        """Where the model goes no further: the frame has ended, it is faulty, or a waiting idle drops it."""
        try:
            frapmast.decode(self.library, bytes(self.levels()))
            self.decoded = 0
        except frapmast.Refused as why:
            self.decoded = why.number
        self.close("dropped" if step.goes_on else "fault" if self.decoded else "good")

    def close(self, ended):
        self.ended, self.content = ended, Content(self.library, self.layout())

    def own(self):
        """The model sent it, or its reply, and did not lose it."""
        return any(part is not None and part.outcome in ("sent", "failed") and not part.answered for part in (self.attempt, self.reply))

    def taker(self):
        """The channel that stores it, or None."""
        last = self.steps[-1]
        if not last.raised & STORED:
            return None
        return next(channel for channel, bits in last.marks.items() if bits & CHANNEL["CHRX"])


class Group:
    """Events that make one line: a host access, a mark or a refused slot by itself; slots of a frame; slots without one."""

    def __init__(self, step, frame=None):
        self.steps, self.frame = [step], frame

    def takes(self, step, frame):
        return step.is_slot() and self.steps[-1].is_slot() and self.frame is frame and step.before.mode == self.steps[0].before.mode


def gathered(library, trace):
    """The groups of a trace, in the order of the events."""
    groups, frame = [], None
    for step in trace.steps:
        if step.is_slot() and frame is None and (step.after.frame() or step.begins):
            frame = Frame(library)
        here = frame if step.is_slot() else None
        if groups and groups[-1].takes(step, here):
            groups[-1].steps.append(step)
        else:
            groups.append(Group(step, here))
        if here is not None:
            here.add(step)
        if frame is not None and not step.after.frame():
            if not frame.ended:
                frame.close("cut off")
            frame = None
    if frame is not None:
        frame.close("under way")
    return groups
