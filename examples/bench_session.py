"""Makes bench sessions, event by event. docs/SESSION.md has the file format. Importing it writes nothing.

    from bench_session import Session, RXD0, RXD2
    s = Session()
    s.reset()                                             # pin reset
    s.write(0x03, 0x10)                                   # host write: address, value
    s.read(0x09, 0x2B)                                    # host reads: addresses
    s.slot(7)                                             # a slot: RxD0 + 2 RxD1 + 4 RxD2
    s.line([1] * 12)                                      # slots by the level on RxD0; RxD1 and RxD2 are recessive
    s.line([0, 1], inputs=RXD0 + RXD2)                    # the same on other inputs; an input that is not named is recessive
    s.frame(0x524, [0x01, 0x40])                          # the slots of a frame that asks for an acknowledge and gets it
    s.frame(0x524, [], command=0b1011, acknowledge=False)    # any command: EXT RAK R/W RTR
    s.frame(0x524, [0x01, 0x40], inputs=RXD2)             # a frame on other inputs
    s.mark(9)                                             # a mark, no effect
    s.raw(b"\\x02\\x83\\x00")                                # the bytes of one event as they are, right or wrong
    s.bytes()                                             # the whole session
"""
START = [0, 0, 0, 0, 1, 1, 1, 1, 0, 1]
RESET, WRITE, READ, SLOT, MARK = range(5)
RXD0, RXD1, RXD2 = 1, 2, 4


def number(n):
    """A number of a session, 0 to 65,535, in LEB128: groups of seven bits, low group first."""
    if not 0 <= n <= 65535:
        raise ValueError(f"{n}: a number of a session is 0 to 65,535")
    groups = [n & 0x7F]
    while n := n >> 7:
        groups.append(n & 0x7F)
    return bytes([g | 0x80 for g in groups[:-1]] + groups[-1:])


def bits(value, width):
    return [value >> (width - 1 - i) & 1 for i in range(width)]


def check(row):
    """The check of a row of bits: x^15+x^11+x^10+x^9+x^8+x^7+x^4+x^3+x^2+1, from all ones, complemented."""
    remainder = 0x7FFF
    for bit in row:
        top = remainder >> 14
        remainder = remainder << 1 & 0x7FFF
        if top != bit:
            remainder ^= 0xF9D
    return remainder ^ 0x7FFF


def coded(row):
    """Three plain bits, then one bit as itself and its opposite."""
    out = []
    for i, bit in enumerate(row):
        out.append(bit)
        if i % 4 == 3:
            out.append(1 - bit)
    return out


def slots(identifier, command, data, acknowledge=False):
    """A frame's slots, 60 + 10 for each data byte; the second acknowledge slot is dominant where an acknowledge is present."""
    covered = bits(identifier, 12) + bits(command, 4) + [b for byte in data for b in bits(byte, 8)]
    return START + coded(covered + bits(check(covered), 15)) + [0, 0, 1, 0 if acknowledge else 1] + [1] * 8


class Session:
    def __init__(self):
        self.events = []

    def raw(self, event):
        self.events.append(bytes(event))

    def reset(self):
        self.raw(number(RESET))

    def write(self, address, value):
        self.raw(number(WRITE) + number(address) + number(value))

    def read(self, *addresses):
        for address in addresses:
            self.raw(number(READ) + number(address))

    def slot(self, levels):
        self.raw(number(SLOT) + number(levels))

    def line(self, levels, inputs=RXD0):
        for level in levels:
            self.slot(7 if level else 7 - inputs)

    def frame(self, identifier, data, command=0b1100, acknowledge=True, inputs=RXD0):
        self.line(slots(identifier, command, data, acknowledge), inputs)

    def mark(self, n):
        self.raw(number(MARK) + number(n))

    def bytes(self):
        return number(1) + number(len(self.events)) + b"".join(self.events)
