"""The listing of a session with what each line means. This is not proved. It shows what the proved player and the calls of libfrapmast.so answer."""
from .frame_words import frame_fails, frame_words
from .frames import KINDS, frame_at, gathered
from .registers import CHANNEL, COMMAND, COMMAND_BIT, LINE, NAMES, RAISED, REFUSED, TRANSMIT, byte
from .sessions import MARK, READ, WRITE, Played, broken
from .trace import SA, SB, SC, STATUS_BYTES, Trace

CONDITION = {0: "no fault on a wire", SA: "Sa, fault on DATA (RxD1)", SB: "Sb, fault on DATA-bar (RxD2)", SA | SB: "Sa Sb, major error"}
INPUTS = ["RxD0", "RxD1", "RxD2"]
PAUSE = 8  # recessive slots that end a stretch in which no frame is found
ROW = 40  # levels that a line shows


class Line:
    """A line of the output: the events that it is about, its words, and what it is: frame, error, quiet or none of these."""

    def __init__(self, first, last, words, *kinds):
        self.first, self.last, self.words, self.kinds = first, last, words, kinds


def explained(library, session):
    """The lines of a session. The first and the last one are about no event."""
    played = Played(library, session)
    lines = [Line(None, None, played.lines[0])] if played.count is not None else []
    rest = False  # the line is not free after a frame that failed
    for group in gathered(library, Trace(library, played)):
        lines += slot_lines(library, group, rest) if group.steps[0].is_slot() else [host_line(group.steps[0])]
        rest = frame_fails(group.frame) if group.frame is not None else rest and not group.steps[-1].ready
    if played.bad:
        return lines + [Line(None, None, f"{played.last}: {broken(played)}", "error")]
    return lines + [Line(None, None, f"{played.last}: every event was read")]


# ---- resets, host access, marks, refused slots


def host_line(step):
    kind, numbers = step.event.kind, step.event.numbers
    value = f" {numbers[1]:02X}" if kind == WRITE else ""
    if step.refused:
        return Line(step.number, step.number, step.line.replace(" refused", f"{value} refused") + f": {refusal(step)}", "error")
    words = step.line.removesuffix(" ok") + value if kind == WRITE else step.line
    if kind == MARK:
        return Line(step.number, step.number, f"{words}: no effect")
    meaning = byte(step.after.map, numbers[0], numbers[1] if kind == WRITE else step.answer) if kind in (READ, WRITE) else "pin reset"
    more = changes(step.before, step.after)
    kinds = ["error"] * any(word.startswith(("Sa", "Sb")) for word in more)
    return Line(step.number, step.number, "; ".join([f"{words}: {meaning}"] + ended(step) + waiting(step) + more), *kinds)


def refusal(step):
    """Why an event was refused."""
    address, name = step.event.numbers[0], NAMES.get(step.event.numbers[0])
    if step.refused in (3, 4):
        return f"{name} is {'read' if step.refused == 3 else 'write'} only" if name else "a reserved register"
    if step.refused == 8:
        return {TRANSMIT: "bits 3 to 1, the version, are 001", COMMAND: "bits 2 and 1 are 00"}[address]
    return REFUSED[step.refused]


def ended(step):
    """What a reset or a write cuts off."""
    words = ["the frame under way is dropped"] if step.before.frame() and not step.after.frame() else []
    if step.before.service() and not step.after.service():
        words.append(f"the service of channel {step.before.sending & 15} ends")
    return words


def waiting(step):
    """What a write asked of a service that goes on, and CHTx that an abort sets at once."""
    if step.event.kind != WRITE or not step.before.service():
        return []
    (address, value), words = step.event.numbers, []
    own = address == STATUS_BYTES[step.before.sending & 15] and value & CHANNEL["CHER"]
    if own and not step.after.service():
        words.append("abort: CHTx is set")
    if not step.after.service():
        return words
    if own or address == COMMAND and value & COMMAND_BIT["REAR"]:
        words.append("the service is to end after the attempt")
    if address == COMMAND and value & COMMAND_BIT["IDLE"]:
        words.append("IDLE waits for the service to end")
    return words


def changes(before, after):
    """Changes of mode, diagnosis and interrupt line."""
    words, differ = [], before.line ^ after.line
    if after.mode != before.mode:
        words.append(f"now {after.mode}")
    if differ & (SA | SB):
        words.append(CONDITION[after.line & (SA | SB)])
    if differ & SC:
        words.append("inputs differ (Sc)" if after.line & SC else "Sc 0")
    if before.interrupt != after.interrupt:
        words.append(f"interrupt line {'on' if after.interrupt else 'off'}")
    return words


# ---- slots


def slot_lines(library, group, rest):
    frame = group.frame
    if frame is None:
        return [loose_line(steps, found, rest) for steps, found in stretches(library, group.steps)]
    if frame.steps[-1] is not group.steps[-1]:
        return [slots_line(group.steps, f"frame under way: {covered(frame, group.steps)}", "frame")]
    begun = f"from {frame.steps[0].number} on: " if frame.steps[0] is not group.steps[0] else ""
    kinds = ["frame"] + ["error"] * frame_fails(frame)
    return [slots_line(group.steps, begun + "; ".join(frame_words(frame)), *kinds)]


def slots_line(steps, words, *kinds):
    """A line about slots, with what changed in them. A change in the last of them has no number behind it."""
    first, last = steps[0].number, steps[-1].number
    more = [(change, step) for step in steps for change in slot_changes(step)]
    if any(change.startswith(("Sa", "Sb")) for change, _ in more):
        kinds += ("error",)
    told = [change if step is steps[-1] else f"{change} at {step.number}" for change, step in more]
    events = f"{first} to {last} slots" if last > first else f"{steps[0].line}"
    return Line(first, last, "; ".join([f"{events}: {words}"] + told), *kinds)


def slot_changes(step):
    before, after, words = step.before, step.after, []
    if step.moved:
        words.append(f"{INPUTS[step.connected]} is sampled")
    if step.ends and not step.raised & (RAISED["TE"] | RAISED["TOK"]):
        words.append(f"the service of channel {before.sending & 15} ends")
    if after.service() and (not before.service() or step.ends):
        words.append(f"channel {after.sending & 15} is chosen to send")
    words += changes(before, after)
    next_level = step.answer ^ after.map[LINE] >> 1 & 1
    if next_level == 0 and not after.frame():
        words.append("the model begins its frame in the next slot")
    return words


def covered(frame, steps):
    """The parts of a frame that some of its slots are in, as far as they are known."""
    first = frame.steps.index(steps[0])
    names = frame.parts()[first:first + len(steps)]
    return names[0] if names[0] == names[-1] else f"{names[0]} to {names[-1]}"


def stretches(library, steps):
    """Slots without a frame under way, cut into stretches: recessive ones, frames that are not followed, other ones."""
    levels, at = [step.sampled for step in steps], 0
    while at < len(steps):
        if levels[at] == 0:
            behind, frame = dominant_stretch(library, levels, at)
        else:
            behind, frame = next((k for k in range(at, len(steps)) if levels[k] == 0), len(steps)), None
        yield steps[at:behind], frame
        at = behind


def dominant_stretch(library, levels, at):
    """Where a stretch that begins with a dominant slot ends, and its frame, if the proved decoder takes it for one."""
    frame, length = frame_at(library, levels[at:])
    if frame is not None:
        return at + length, frame
    return next((k for k in range(at, len(levels)) if levels[k:k + PAUSE] == [1] * PAUSE), len(levels)), None


def loose_line(steps, frame, rest):
    """Slots without a frame under way; rest: after a frame that failed."""
    mode, last = steps[0].before.mode, steps[-1]
    number = f"{len(steps)} slots" if len(steps) > 1 else "a slot"
    if mode == "asleep":
        return slots_line(steps, f"{number}, asleep: nothing is sampled", "quiet")
    why = "the controller is idle" if mode == "idle" else "the line was not free"
    if frame is not None:
        identifier, command, data, acknowledge = frame
        words = " ".join([KINDS[command & 3], f"{identifier:03X}", f"{command:X}"] + [f"{n:02X}" for n in data])
        return slots_line(steps, f"{words}, {'' if acknowledge else 'not '}acknowledged; not followed: {why}", "frame", "error")
    if steps[0].sampled == 0:
        row = "".join(str(step.sampled) for step in steps)
        return slots_line(steps, f"{row[:ROW]}{'..' * (len(row) > ROW)}; not followed: {why}", "quiet" if rest else "error")
    if mode == "idle":
        return slots_line(steps, f"{number} recessive, idle", "quiet")
    return slots_line(steps, f"{number} recessive; a frame {'can begin' if last.ready else 'cannot begin yet'}", "quiet")
