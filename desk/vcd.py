"""A session as wave forms: a VCD file, which GTKWave and PulseView open. This is not proved. Every value is one that the session has or that the
calls of libfrapmast.so answer; docs/TOOLS.md says where each comes from.

A session has no times. A slot is drawn SLOT long, and its sample in its middle. Host accesses between two slots are drawn in equal steps
behind the sample of the first one.
"""
from .frames import DATA, PARTS, UNSURE, gathered
from .registers import LINE
from .sessions import Played
from .trace import SA, SB, SC, Trace

MODES = ["idle", "active", "asleep"]
SCOPES = [("line", ["rxd0", "rxd1", "rxd2", "txd", "sampled"]),
          ("controller", ["interrupt"] + MODES),
          ("frame", [part.replace(" ", "_") for part in PARTS]),
          ("diagnosis", ["sa", "sb", "sc"])]
WIRES = [name for _, names in SCOPES for name in names]
WORDS = ["mode", "part"]  # texts, which GTKWave shows and PulseView cannot read; so is the number of the event
CODES = {name: chr(33 + k) for k, name in enumerate(WIRES + WORDS + ["event"])}


def vcd_of(library, session, slot, words):
    """The lines of the file, and whether the session is good. A slot lasts so many nanoseconds; words: with texts for GTKWave."""
    played = Played(library, session)
    trace = Trace(library, played)
    waves = Waves(slot, trace, part_names(library, trace))
    return header(slot, words) + waves.lines(words), not played.bad


def part_names(library, trace):
    """The part of the frame that a slot is in, by the number of its event."""
    found = {}
    for group in gathered(library, trace):
        if group.frame is not None:
            found.update((step.number, DATA if part == UNSURE else part) for step, part in zip(group.frame.steps, group.frame.parts()))
    return found


def header(slot, words):
    lines = ["$version frapmast vcd $end",
             f"$comment not proved; a session has no times: a slot is drawn as {slot} ns $end",
             "$timescale 1 ns $end", "$scope module frapmast $end"]
    for scope, names in SCOPES:
        lines += [f"$scope module {scope} $end"] + [f"$var wire 1 {CODES[name]} {name} $end" for name in names] + ["$upscope $end"]
    if words:
        lines += [f"$var string 1 {CODES[name]} {name} $end" for name in WORDS] + [f"$var integer 32 {CODES['event']} event $end"]
    return lines + ["$upscope $end", "$enddefinitions $end"]


def change(name, value):
    """A change as the file has it: a wire, a text or a number."""
    if name in WORDS:
        return f"s{value.replace(' ', '_')} {CODES[name]}"
    return f"b{value:b} {CODES[name]}" if name == "event" else f"{value}{CODES[name]}"


class Waves:
    """The changes of all signals, in the order of time."""

    def __init__(self, slot, trace, names):
        self.slot, self.names, steps = slot, names, trace.steps
        self.moments = []  # time, and signals with their values
        self.driven = 1
        self.at(0, dict.fromkeys(WIRES, "x") | {"txd": 1} | self.parts(None) | {"event": 0})
        if steps:
            self.at(0, self.state(steps[0].before))
        period, behind = 0, []
        for step in steps:
            if step.is_slot():
                self.host(period, behind)
                period, behind = period + slot, []
                self.take(period, step)
            else:
                behind.append(step)
        self.host(period, behind)
        self.at(period + slot, {"txd": trace.level ^ trace.last.map[LINE] >> 1 & 1})  # the level driven behind the last slot
        self.at(period + 2 * slot, {})

    def at(self, time, values):
        self.moments.append((time, values))

    def state(self, view):
        """Mode, interrupt line and diagnosis after an event."""
        values = {mode: int(mode == view.mode) for mode in MODES}
        diagnosis = {"sa": int(bool(view.line & SA)), "sb": int(bool(view.line & SB)), "sc": int(bool(view.line & SC))}
        return values | diagnosis | {"interrupt": int(view.interrupt), "mode": view.mode}

    def parts(self, part):
        return {name.replace(" ", "_"): int(name == part) for name in PARTS} | {"part": part or "none"}

    def take(self, period, step):
        """A slot: inputs, level driven and part from its beginning on; what it leaves from its middle on."""
        levels, self.driven = step.event.numbers[0], step.driven
        inputs = {f"rxd{k}": levels >> k & 1 for k in range(3)}
        txd = {"txd": self.driven ^ step.before.map[LINE] >> 1 & 1}
        self.at(period, inputs | txd | self.parts(self.names.get(step.number)) | {"event": step.number})
        self.at(period + self.slot // 2, self.state(step.after) | {"sampled": "x" if step.sampled is None else step.sampled})

    def host(self, period, steps):
        """The events between two slots, in the second half of the first one."""
        for k, step in enumerate(steps, 1):
            time = period + self.slot // 2 + self.slot // 2 * k // (len(steps) + 1)
            txd = {"txd": self.driven ^ step.after.map[LINE] >> 1 & 1}
            self.at(time, self.state(step.after) | txd | {"event": step.number})

    def lines(self, words):
        """The changes alone, a time before those of its moment."""
        known, lines, shown = {}, [], None
        for time, values in self.moments:
            fresh = {name: value for name, value in values.items() if known.get(name) != value and (words or name in WIRES)}
            known.update(fresh)
            if time != shown and (fresh or (time, values) == self.moments[-1]):
                lines.append(f"#{time}")
                shown = time
            lines += [change(name, value) for name, value in fresh.items()]
        return lines
