"""A session event by event through the calls of libfrapmast.so, with what each event did. This module is not proved.

What an event did is asked of the model, by reads that a host could make and by trials: a copy of the model gets a write or a slot, and the copy
shows what comes of it. Each answer is compared with the line of the proved player's listing. Two rules are written here: the input that Ma, Mb, Sa
and Sb select (`connected`), and that without a service nothing is driven before RTR (`settle`).
"""
import frapmast

from .registers import CLEAR, COMMAND, COMMAND_BIT, DIAGNOSIS, ERROR, LINE, LINE_BIT, LINE_STATUS, SENDING, STATUS, STORED
from .sessions import MARK, NAMES, READ, RESET, SLOT, WRITE, Trouble

ACTI, REAR, MSDC = (COMMAND_BIT[name] for name in ("ACTI", "REAR", "MSDC"))
IDG, TXG, RXG, SA, SB, SC = (LINE_BIT[name] for name in ("IDG", "TXG", "RXG", "SA", "SB", "SC"))
RTR = 28  # slots of a frame before RTR: the model drives nothing earlier without a service
STATUS_BYTES = [0x13 + 8 * channel for channel in range(14)]


class View:
    """What a host could read after an event. Asleep nothing can be read, and nothing changes but the mode, the service and the frame."""

    def __init__(self, model, last=None):
        self.map, self.interrupt = model.map(), model.interrupt()
        try:
            self.line = model.read(LINE_STATUS)
        except frapmast.Refused:
            self.mode, self.line = "asleep", last.line & ~(TXG | RXG | IDG)
            self.sending, self.error = last.sending, last.error
            return
        self.mode = "idle" if self.line & IDG else "active"
        self.sending, self.error = model.read(SENDING), model.read(ERROR)

    def frame(self):
        return bool(self.line & RXG)

    def service(self):
        return bool(self.line & TXG)


class Step:
    """An event, its line in the listing, its answer, and the views before and after it. For an accepted slot also:

    sampled    the level sampled, None asleep        driven     the level driven in it, before IVTX
    raised     the bits of 0x09 that it raises       marks      channel: the bits CHER, CHTx, CHRx that it sets
    goes_on    the frame goes on after it            places     the mailbox places that it writes
    begins     an attempt begins in it               attempt    an attempt goes on after it
    replier    the channel whose reply begins in it  connected  the input that is sampled
    ends       a service ends in it                  moved      the input sampled is not that of the slot before
    ready      a dominant slot after it begins a frame
    earlier    the model before it, where a frame begins in it
    """

    def __init__(self, number, event, line, before):
        self.number, self.event, self.line, self.before = number, event, line, before
        self.refused, self.answer, self.after = 0, None, before
        self.sampled, self.driven, self.connected = None, 1, None
        self.raised, self.marks, self.goes_on, self.places = 0, {}, False, []
        self.begins, self.attempt, self.replier, self.ready, self.earlier = False, False, None, False, None
        self.ends = self.moved = False

    def is_slot(self):
        return self.event.kind == SLOT and not self.refused


def line_of(step):
    """The line that the answer makes."""
    kind, numbers = step.event.kind, step.event.numbers
    words = [str(step.number), NAMES[kind]]
    if kind in (WRITE, READ):
        words.append(f"{numbers[0]:02X}")
    elif kind in (SLOT, MARK):
        words.append(str(numbers[0]))
    if step.refused:
        words += ["refused", str(step.refused)]
    elif kind in (RESET, WRITE):
        words.append("ok")
    elif kind == READ:
        words.append(f"{step.answer:02X}")
    elif kind == SLOT:
        words += ["drives", str(step.answer)]
    return " ".join(words)


def attempting(model):
    """Whether an attempt is under way: REAR ends the service at once, unless it is in an attempt."""
    trial = model.copy()
    trial.write(COMMAND, REAR)
    return bool(trial.read(LINE_STATUS) & TXG)


def all_at(model, level):
    """The levels of three inputs that the model hears as this level, whichever is sampled."""
    return 7 * (level ^ (model.map()[LINE] & 1))


def opens(model, driven):
    """Whether an attempt begins in the next slot: one that samples what is driven leaves it under way."""
    trial = model.copy()
    trial.slot(all_at(trial, driven))
    return attempting(trial)


def cleared(model):
    """A copy with no interrupt bit and no CHER, CHTx, CHRx, and no idle that waits: what a slot sets in it is what the slot sets."""
    trial = model.copy()
    trial.write(CLEAR, 0xFF)
    trial.write(COMMAND, ACTI)
    for address in STATUS_BYTES:
        trial.write(address, trial.map()[address] & 0xF8)
    return trial


def ends(model, levels):
    """Whether a slot ends the service: in a copy no channel can be chosen after it."""
    trial = cleared(model)
    for address in STATUS_BYTES:
        trial.write(address, trial.map()[address] | 3)
    trial.slot(levels)
    return not trial.read(LINE_STATUS) & TXG


def marks(model):
    found = {channel: model.map()[address] & 7 for channel, address in enumerate(STATUS_BYTES)}
    return {channel: bits for channel, bits in found.items() if bits}


def replier(model):
    """The channel whose immediate reply begins in the next slot, at RTR: a recessive sample is an error of the reply, which marks its channel."""
    trial = cleared(model)
    trial.slot(all_at(trial, 1))
    return min(marks(trial), default=None)


def places(model, levels):
    """The mailbox places that a slot writes, in order: they hold the same, whatever was there."""
    left = []
    for fill in (0x00, 0xFF):
        trial = model.copy()
        for address in range(0x80, 0x100):
            trial.write(address, fill)
        trial.slot(levels)
        left.append(trial.map()[0x80:])
    written = {k for k in range(128) if left[0][k] == left[1][k]}
    first = next((k for k in sorted(written) if (k - 1) % 128 not in written), 0)
    return [0x80 + (first + k) % 128 for k in range(len(written))]


def first_wire(model):
    """In major error: whether automatic selection takes RxD1, and not RxD2. A period of its own, with four edges on RxD1 and one on RxD2,
    ends in a pulse. It leaves the major error only where RxD1 is connected."""
    trial, other = model.copy(), model.map()[DIAGNOSIS] & 0xFC ^ 0x10
    flip = all_at(trial, 0)
    trial.write(DIAGNOSIS, other)  # another SDC starts period and counts anew; ETIP and ESDC are 0
    trial.slot(7 ^ flip)
    trial.write(DIAGNOSIS, other ^ 0x10)
    for levels in (1, 3, 1, 3):
        trial.slot(levels ^ flip)
    trial.write(COMMAND, MSDC)
    return not trial.read(LINE_STATUS) & (SA | SB)


def connected(model, view):
    """The input that the next slot samples."""
    chosen = view.map[DIAGNOSIS] >> 2 & 3
    if chosen < 3:
        return (0, 2, 1)[chosen]
    fault = view.line & (SA | SB)
    if fault == SA | SB:
        return 1 if first_wire(model) else 2
    return {0: 0, SA: 2, SB: 1}[fault]


def ready(model):
    """Whether a dominant slot begins a frame."""
    trial = model.copy()
    trial.slot(all_at(trial, 0))
    return bool(trial.read(LINE_STATUS) & RXG)


class Trace:
    """The steps of a session that was played."""

    def __init__(self, library, played):
        self.model, self.played = frapmast.Controller(library), played
        self.level = 1  # driven in the next slot, before IVTX
        self.connected = 0  # the input sampled in the last slot
        self.length = 0  # slots of the frame under way
        self.attempt = False
        self.last = View(self.model)
        self.steps = []
        for number, event in enumerate(played.events):
            step = Step(number, event, played.answers[number], self.last)
            self.make(step)
            if line_of(step) != step.line:
                raise Trouble(f"event {number}: the player writes `{step.line}`, and the call answers `{line_of(step)}`")
            self.steps.append(step)

    def make(self, step):
        """Makes an event, and notes what it did."""
        kind, numbers = step.event.kind, step.event.numbers
        if kind == SLOT and numbers[0] < 8:
            self.ask_before(step)
        try:
            step.answer = self.call(kind, numbers)
        except frapmast.Refused as why:
            step.refused = why.number
            return
        if kind in (READ, MARK):
            return
        step.after = self.last = View(self.model, self.last)
        self.settle(step)

    def call(self, kind, numbers):
        if kind == MARK:
            return None
        calls = {RESET: self.model.reset, WRITE: self.model.write, READ: self.model.read, SLOT: self.model.slot}
        return calls[kind](*numbers)

    def ask_before(self, step):
        """What only the model before the slot can tell."""
        step.driven, view, levels = self.level, step.before, step.event.numbers[0]
        if view.mode == "asleep":
            return
        step.connected = connected(self.model, view)
        step.moved, self.connected = step.connected != self.connected, step.connected
        step.sampled = (levels >> step.connected ^ view.map[LINE]) & 1
        if view.mode == "idle":
            return
        if view.service() and not self.attempt and (self.level == 0 or self.length == 10):
            step.begins = opens(self.model, self.level)
        if self.length == RTR and self.level == 0 and not self.attempt:
            step.replier = replier(self.model)
        if not view.frame() and step.sampled == 0:
            step.earlier = self.model.copy()
        step.ends = view.service() and ends(self.model, levels)
        if view.frame() or step.begins:
            trial = cleared(self.model)
            trial.slot(levels)
            step.raised, step.marks = trial.read(STATUS), marks(trial)
            step.goes_on = bool(trial.read(LINE_STATUS) & RXG)
            if step.raised & STORED:
                step.places = places(self.model, levels)

    def settle(self, step):
        """The level driven next, the length of the frame under way, the attempt."""
        view = step.after
        if step.is_slot():
            self.level = step.answer ^ view.map[LINE] >> 1 & 1
            self.length = self.length + 1 if view.frame() else 0
        elif not view.frame():
            self.length = 0
        if view.mode != "active" or not view.service() and self.length < RTR:
            self.level = 1  # without a service nothing is driven before RTR
        self.attempt = step.attempt = view.service() and attempting(self.model)
        step.ready = view.mode == "active" and not view.frame() and ready(self.model)
