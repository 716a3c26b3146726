"""Registers, channels and mailbox in words. This module is not proved. docs/REGISTERS.md has the registers.

tools/try_frapmast compares the names and places of the bits with crates/registers/src/lib.rt and crates/channels/src/lib.rt.
"""
LINE, TRANSMIT, DIAGNOSIS, COMMAND, LINE_STATUS, SENDING, MESSAGE, ERROR = range(8)
STATUS, ENABLE, CLEAR = 9, 10, 11
NAMES = {LINE: "line control", TRANSMIT: "transmit control", DIAGNOSIS: "diagnosis control", COMMAND: "command", LINE_STATUS: "line status",
         SENDING: "transmission status", MESSAGE: "last message status", ERROR: "last error status", STATUS: "interrupt status",
         ENABLE: "interrupt enable", CLEAR: "interrupt reset"}
INTERRUPTS = [("RST", 0x80), ("TE", 0x10), ("TOK", 0x08), ("RE", 0x04), ("ROK", 0x02), ("RNOK", 0x01)]
COMMANDS = [("GRES", 0x80), ("SLEEP", 0x40), ("IDLE", 0x20), ("ACTI", 0x10), ("REAR", 0x08), ("MSDC", 0x01)]
LINE_BITS = [("SPG", 0x40), ("IDG", 0x20), ("SC", 0x10), ("SB", 0x08), ("SA", 0x04), ("TXG", 0x02), ("RXG", 0x01)]
LINE_CONTROL = [("PC", 0x08), ("IVTX", 0x02), ("IVRX", 0x01)]
ERRORS = [("BOC", 0x40), ("BOV", 0x20), ("FCSE", 0x08), ("ACKE", 0x04), ("CV", 0x02), ("FV", 0x01)]
TAG_BITS = [("EXT", 0x08), ("RAK", 0x04), ("RNW", 0x02), ("RTR", 0x01)]
CHANNEL_BITS = [("CHER", 0x04), ("CHTX", 0x02), ("CHRX", 0x01)]
RAISED, COMMAND_BIT, LINE_BIT, CODE, CHANNEL = (dict(names) for names in (INTERRUPTS, COMMANDS, LINE_BITS, ERRORS, CHANNEL_BITS))
STORED = RAISED["ROK"] | RAISED["RNOK"]  # one of them where a frame is stored
SHOWN = {"SA": "Sa", "SB": "Sb", "SC": "Sc", "CHTX": "CHTx", "CHRX": "CHRx"}
BITS = {STATUS: INTERRUPTS, ENABLE: INTERRUPTS, CLEAR: INTERRUPTS, COMMAND: COMMANDS, LINE_STATUS: LINE_BITS, ERROR: ERRORS}
ERROR_WORDS = {"BOC": "buffer occupied", "BOV": "buffer overflow", "FCSE": "check error", "ACKE": "acknowledge error", "CV": "code violation",
               "FV": "frame violation"}
REFUSED = {1: "the address is above 255", 2: "the value is above 255", 5: "the levels are above 7", 7: "the controller is asleep"}
SELECTIONS = ["RxD0", "RxD2", "RxD1", "automatic selection"]  # by Ma and Mb
FIRST_CHANNEL, FIRST_PLACE = 0x10, 0x80


def bits(names, value):
    """The names of the bits that are set; a bit without a name has its number."""
    named = [SHOWN.get(name, name) for name, mask in names if value & mask]
    known = sum(mask for _, mask in names)
    return " ".join(named + [f"bit {k}" for k in range(7, -1, -1) if value & ~known & 1 << k])


def error(code):
    """A code of 0x07 in words."""
    return "none" if code == 0 else ", ".join(f"{name}, {ERROR_WORDS[name]}" for name, mask in ERRORS if code & mask)


def control(address, value):
    """The byte of a control register in words."""
    words = {
        LINE: lambda: " ".join(filter(None, [f"CD {value >> 4}", bits(LINE_CONTROL, value & 15)])),
        TRANSMIT: lambda: f"MR {value >> 4}, MT {value & 1}",
        DIAGNOSIS: lambda: f"SDC {value >> 4}, {SELECTIONS[value >> 2 & 3]}" + (", ETIP" if value & 2 else "") + (", ESDC" if value & 1 else ""),
        SENDING: lambda: f"channel {value & 15}, retries {value >> 4}",
        MESSAGE: lambda: f"channel {value & 15}, retries {value >> 4}",
        ERROR: lambda: error(value),
    }
    said = words[address]() if address in words else bits(BITS[address], value)
    return f"{NAMES[address]} {said or 'none'}"


class Channel:
    """A channel as eight bytes of the memory map have it."""

    def __init__(self, map_, channel):
        self.number, self.row = channel, map_[FIRST_CHANNEL + 8 * channel:][:8]
        self.tag = self.row[0] << 4 | self.row[1] >> 4
        self.mask = self.row[6] << 4 | self.row[7] >> 4
        self.pointer, self.length = self.row[2] & 0x7F, self.row[3] >> 3
        self.status = self.row[1] >> 1 & 1, self.row[1] & 1, self.row[3] >> 1 & 1, self.row[3] & 1

    def type(self):
        """The message type of its status: docs/REGISTERS.md, "Channel status"."""
        types = {(0, 0, 0): "transmit message", (0, 0, 1): "inactive", (0, 1, 0): "receive message", (0, 1, 1): "inactive"}
        rnw, rtr, sent, received = self.status
        if rnw == 0:
            return types[0, rtr, received if rtr else sent]
        replies = {(0, 0, 0): "immediate reply", (0, 0, 1): "deferred reply", (0, 1, 0): "reply request detection", (1, 0, 0): "reply request",
                   (1, 1, 0): "reply request without transmission"}
        return replies.get((rtr, sent, received), "inactive")

    def area(self, map_):
        """The mailbox places that it uses, its link followed; none where the link is bad."""
        used = self
        if self.length == 0:
            if self.pointer & 15 > 13 or Channel(map_, self.pointer & 15).length == 0:
                return []
            used = Channel(map_, self.pointer & 15)
        return [FIRST_PLACE + (used.pointer + k) % 128 for k in range(used.length)]

    def role(self, map_):
        """Its message type, and its link where it has one and is not inactive."""
        kind = self.type()
        if self.length or kind == "inactive":
            return kind
        return f"{kind}, link to channel {self.pointer & 15}" + ("" if self.area(map_) else ", a bad link")


def channel_byte(map_, address):
    """A byte of a channel in words, as the map now has it."""
    channel = Channel(map_, (address - FIRST_CHANNEL) // 8)
    place, value = (address - FIRST_CHANNEL) % 8, map_[address]
    if place < 2:
        words = f"tag {channel.tag:03X}" + (f", {bits(TAG_BITS, value & 15) or 'no command bit'}" if place else "")
    elif place == 2:
        words = f"pointer {channel.pointer:02X}, mailbox {FIRST_PLACE + channel.pointer:02X}" + (", DRAK" if value & 0x80 else "")
    elif place == 3:
        words = ", ".join(filter(None, [f"M_L {channel.length}", bits(CHANNEL_BITS, value & 7)])) + f"; {channel.role(map_)}"
    else:
        words = f"mask {channel.mask:03X}" if place > 5 else "no register"
    return f"channel {channel.number}, {words}"


def mailbox_byte(map_, address):
    """A byte of the mailbox in words: the channels in whose area it is. With CHRx the first one is the status byte of a message."""
    found = []
    for number in range(14):
        channel = Channel(map_, number)
        area = channel.area(map_) if channel.length else []
        if address in area:
            k = area.index(address)
            stored = k == 0 and channel.status[3]
            found.append(f"channel {number}, " + (status_byte(map_[address]) if stored else f"byte {k}" if k else "first byte"))
    return "mailbox" + (": " + "; ".join(found) if found else ", of no channel")


def status_byte(value):
    return f"status byte: RAK {value >> 7}, R/W {value >> 6 & 1}, RTR {value >> 5 & 1}, {value & 31} data byte" + ("s" if value & 31 != 1 else "")


def byte(map_, address, value):
    """What is written to an address, or read from it, in words."""
    if address < FIRST_CHANNEL:
        return control(address, value)
    map_ = map_[:address] + bytes([value]) + map_[address + 1:]
    return channel_byte(map_, address) if address < FIRST_PLACE else mailbox_byte(map_, address)
