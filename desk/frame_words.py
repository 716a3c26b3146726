"""A frame in words. This is not proved. Where the words are `unknown`, the tool has no word for what the model did: tools/try_frapmast looks for it."""
from .frames import ACKNOWLEDGE, CHECK, END_OF_DATA, UNSURE
from .registers import CHANNEL, CLEAR, CODE, INTERRUPTS, LINE, RAISED, STATUS, STORED, Channel, bits, error
from .trace import STATUS_BYTES, all_at

WHY = {20: "a slot of the start is wrong", 21: "the pair 11", 22: "the pair 00 where a bit and its opposite are due", 23: "the check is wrong",
       24: "the first acknowledge slot is 0", 25: "a slot of the end of frame is 0"}
UNFINISHED = {"dropped": "dropped by the IDLE that waited", "cut off": "cut off", "under way": "under way as the session ends"}


def frame_fails(frame):
    """Whether the frame has a fault, does not fit, or ends an attempt or a reply of the model in error."""
    failed = any(part is not None and part.outcome == "failed" for part in (frame.attempt, frame.reply))
    return frame.ended == "fault" or failed or bool(frame.steps[-1].raised & (RAISED["TE"] | RAISED["RE"]))


def frame_words(frame):
    """What was on the line, what the model did in it, who took it, what it raised."""
    words = [head(frame)]
    if frame.attempt:
        words.append(attempt_words(frame))
    if frame.reply:
        words.append(reply_words(frame))
    if frame.ended == "fault" and not frame.own():
        words.append(fault_words(frame))
    if frame.ended in UNFINISHED:
        words.append(UNFINISHED[frame.ended])
    if frame.ended == "good" and not frame.own():
        words.append(taken_words(frame))
    raised = bits(INTERRUPTS, frame.steps[-1].raised)
    return words + [raised] * bool(raised)


def head(frame):
    """The frame as it was on the line, as far as it came."""
    content = frame.content
    words = [f"{content.kind()} {content.words()}"]
    if content.right is not None:
        words.append("check right" if content.right else "check wrong")
    seen = [step for step, part in zip(frame.steps, frame.parts()) if part == ACKNOWLEDGE]
    if len(seen) == 2:
        words.append(acknowledged(*seen))
    return ", ".join(words)


def acknowledged(first, second):
    if (first.sampled, second.sampled) == (1, 0):
        return "acknowledged by the model" if second.driven == 0 else "acknowledged"
    if (first.sampled, second.sampled) == (1, 1):
        return "not acknowledged" + (", though the model drove it" if second.driven == 0 else "")
    return f"acknowledge {first.sampled}{second.sampled}"


def place_words(frame, index):
    """A slot of the frame and its part. FCSE in a frame of the model's own is given in the check alone."""
    part = frame.parts()[index]
    if part == UNSURE and frame.fails() and frame.steps[index].after.error == CODE["FCSE"]:
        part = CHECK
    return f"slot {index} ({part})"


def failure(frame, index):
    """Where an attempt or a reply failed, with its code."""
    step = frame.steps[index]
    differ = "" if step.driven == step.sampled else f", {step.driven} driven and {step.sampled} sampled"
    return f"failed in {place_words(frame, index)}{differ}: {error(step.after.error) if step.after.error else 'unknown'}"


def attempt_words(frame):
    """The model's attempt in the frame, and how it ended."""
    attempt = frame.attempt
    name = f"channel {attempt.channel}" + (", behind another module's start" if attempt.first else "")
    if attempt.outcome is None:
        return f"request of {name}: answered in the frame" if attempt.answered else f"attempt of {name}"
    if attempt.outcome == "lost":
        return f"attempt of {name}: contention lost in {place_words(frame, attempt.end)}"
    if attempt.outcome == "sent":
        sent = f"request of {name}: answered in the frame" if attempt.answered else f"sent by {name}"
        return sent + (f", retries {attempt.retries}" if attempt.retries else "")
    last = frame.steps[attempt.end]
    behind = "given up" if last.raised & RAISED["TE"] else f"retries {attempt.retries + 1}"
    if attempt.answered:
        return f"request of {name}: answered in the frame, failed: {error(last.after.error)}, {behind}"
    return f"attempt of {name}: {failure(frame, attempt.end)}, {behind}"


def reply_words(frame):
    """The model's immediate reply in the frame, and how it ended."""
    reply = frame.reply
    if reply.outcome == "failed":
        return f"reply of channel {reply.channel}: {failure(frame, reply.end)}"
    if reply.outcome == "lost":
        return f"reply of channel {reply.channel}: contention lost in {place_words(frame, reply.end)}"
    return f"reply of channel {reply.channel}" + (": sent" if reply.outcome == "sent" else "")


def fault_words(frame):
    """A fault in a frame that the model receives."""
    last, index = frame.steps[-1], len(frame.steps) - 1
    here = frame.parts()[index]
    why = WHY.get(frame.decoded) or {END_OF_DATA: "data in a reply request", ACKNOWLEDGE: "the acknowledge is wrong"}.get(here, "unknown")
    words = f"fault in {place_words(frame, index)}: {error(last.after.error)}: {why}"
    return ", ".join([words] + [f"CHER in channel {channel}" for channel, mark in last.marks.items() if mark & CHANNEL["CHER"]])


def taken_words(frame):
    """Who took a good frame."""
    last, taker = frame.steps[-1], frame.taker()
    if taker is not None:
        channel = Channel(last.before.map, taker)
        return f"channel {taker} takes it (tag {channel.tag:03X}, mask {channel.mask:03X}), {places_words(frame)}"
    full = [channel for channel, mark in last.marks.items() if mark & CHANNEL["CHER"]]
    if last.raised & RAISED["RE"]:  # a request that is given up marks its own channel too, with CHTx
        return f"channel {min(full, key=lambda c: last.marks[c] & CHANNEL['CHTX'])} has no room for it: {error(CODE['BOV'])}, CHER"
    return "no channel takes it" + reason(frame)


def places_words(frame):
    """The mailbox places written: status byte and data, and the check behind them where there is room."""
    places, count = frame.steps[-1].places, 1 + len(frame.content.data.split())
    message, check = places[:count], places[count:]
    words = f"mailbox {message[0]:02X}" + (f" to {message[-1]:02X}" if count > 1 else "")
    return words + (f", its check in {check[0]:02X} and {check[-1]:02X}" if check else "")


def reason(frame):
    """Why no channel takes a good frame, where that can be told."""
    command = int(frame.content.command, 16)
    if not command & 8:
        return ", for its EXT is 0"
    if command & 3 == 1:
        return ", for its R/W is 0 and its RTR 1"
    waiting = next(occupied(frame), None)
    return "" if waiting is None else f"; channel {waiting} would with CHRx 0"


def occupied(frame):
    """The channels that would take the frame with CHRx 0: tried on the model as it was before the frame."""
    for channel, address in enumerate(STATUS_BYTES):
        trial = frame.steps[0].earlier.copy()
        value = trial.map()[address]
        if not value & CHANNEL["CHRX"]:
            continue
        trial.write(address, value & ~CHANNEL["CHRX"])
        driven = 1
        for step in frame.steps:  # where it now drives dominant, all inputs are dominant
            trial.write(CLEAR, 0xFF)
            levels = step.event.numbers[0] if driven else all_at(trial, 0)
            driven = trial.slot(levels) ^ trial.map()[LINE] >> 1 & 1
        if trial.map()[address] & CHANNEL["CHRX"] and trial.read(STATUS) & STORED:
            yield channel
