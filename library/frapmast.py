"""The calls of libfrapmast.so from Python, by ctypes. The functions behind them are proved; this module is not.

    import frapmast
    library = frapmast.load(frapmast.SHARED)
    slots = frapmast.encode(library, 0x524, 0b1100, b"\\x01\\x40", True)
    identifier, command, data, acknowledge = frapmast.decode(library, slots)
    listing = frapmast.play(library, session)
    model = frapmast.Controller(library)

`library/build` builds the file (Linux on x86-64). library/frapmast.h says what each call answers. A call that is refused
raises Refused with the number of the rule that was broken.
"""
import ctypes
import os

TOP = os.path.dirname(os.path.dirname(os.path.abspath(__file__)))
SHARED = os.path.join(TOP, "library", "out", "libfrapmast.so")
MOST_BYTES, MOST_SLOTS, MOST_LISTING = 30, 360, 327840
MAP, ROW = 256, 176


class Refused(Exception):
    """The call was refused: the number of the rule that was broken."""

    def __init__(self, number):
        super().__init__(number)
        self.number = number


def load(path):
    """The library, with the types of its calls. No pointer is null: a bytes object has one even where it is empty."""
    library = ctypes.CDLL(path)
    data, size, room = ctypes.c_char_p, ctypes.c_size_t, ctypes.POINTER(ctypes.c_char)
    number, count = ctypes.c_uint32, ctypes.POINTER(size)
    library.frapmast_encode.argtypes = [number, number, data, size, ctypes.c_bool, room, size, count]
    library.frapmast_decode.argtypes = [data, size, room, size, ctypes.POINTER(ctypes.c_uint16)]
    library.frapmast_play.argtypes = [data, size, room, size, count]
    for call in (library.frapmast_encode, library.frapmast_decode, library.frapmast_play):
        call.restype = ctypes.c_uint8
    load_controller(library, room)
    return library


def load_controller(library, room):
    """The types of the controller's calls: a map and a row, then what the call is given and where its value goes."""
    number, value = ctypes.c_uint16, ctypes.POINTER(ctypes.c_uint8)
    for call, more, answer in [
        (library.frapmast_fresh, [], None),
        (library.frapmast_reset, [], ctypes.c_uint8),
        (library.frapmast_write, [number, number], ctypes.c_uint8),
        (library.frapmast_read, [number, value], ctypes.c_uint8),
        (library.frapmast_slot, [number, value], ctypes.c_uint8),
        (library.frapmast_interrupt, [], ctypes.c_bool),
    ]:
        call.argtypes, call.restype = [room, room] + more, answer


def accepted(number):
    if number:
        raise Refused(number)


def encode(library, identifier, command, data, acknowledge):
    """The slots of a frame, a byte each: 1 recessive, 0 dominant."""
    room, count = ctypes.create_string_buffer(MOST_SLOTS), ctypes.c_size_t()
    accepted(library.frapmast_encode(identifier, command, data, len(data), acknowledge, room, len(room), count))
    return room.raw[:count.value]


def decode(library, slots):
    """Identifier, command, data and acknowledge of the frame that the slots are."""
    room, head = ctypes.create_string_buffer(MOST_BYTES), (ctypes.c_uint16 * 4)()
    accepted(library.frapmast_decode(slots, len(slots), room, len(room), head))
    return head[0], head[1], room.raw[:head[2]], head[3] == 1


def play(library, session):
    """The listing of a session."""
    room, length = ctypes.create_string_buffer(MOST_LISTING), ctypes.c_size_t()
    accepted(library.frapmast_play(session, len(session), room, len(room), length))
    return room.raw[:length.value].decode("ascii")


class Controller:
    """A fresh controller. Its state is a map and a row, which each call is lent."""

    def __init__(self, library):
        self.library = library
        self.state = ctypes.create_string_buffer(MAP), ctypes.create_string_buffer(ROW)
        library.frapmast_fresh(*self.state)

    def copy(self):
        """Another controller in the same state. What is done to one does not reach the other."""
        other = Controller.__new__(Controller)
        other.library = self.library
        other.state = tuple(ctypes.create_string_buffer(part.raw, len(part)) for part in self.state)
        return other

    def map(self):
        """The 256 bytes of the memory map. From 0x10 on they are what a read answers."""
        return self.state[0].raw

    def reset(self):
        accepted(self.library.frapmast_reset(*self.state))

    def write(self, address, value):
        accepted(self.library.frapmast_write(*self.state, address, value))

    def read(self, address):
        value = ctypes.c_uint8()
        accepted(self.library.frapmast_read(*self.state, address, value))
        return value.value

    def slot(self, levels):
        """The level that the model drives in the next slot. Levels are RxD0 + 2 RxD1 + 4 RxD2."""
        level = ctypes.c_uint8()
        accepted(self.library.frapmast_slot(*self.state, levels, level))
        return level.value

    def interrupt(self):
        return self.library.frapmast_interrupt(*self.state)
