"""Jobs: a tape of commands, and the hits that it gives."""
import ctypes
import operator
import struct
from collections import namedtuple

from ._geometry import blob
from ._library import REFUSED, library
from ._operations import MEMORY
from ._refusal import Refusal

LOAD, TOLERANCE, PAIR, END = 1, 2, 3, 4
OPERANDS = {LOAD: struct.Struct("<BI"), TOLERANCE: struct.Struct("<d"), PAIR: struct.Struct("<BB")}
NUMBERS = 256  # 0 to 255


class Hit(namedtuple("Hit", "first second distance")):
    """Two numbers of a tape whose geometries are within tolerance, and their distance."""
    __slots__ = ()


class Tape:
    """Which geometries there are, and which of them are matched within which tolerance.

        tape = viskorrel.Tape().load(7, dent).load(9, struck_off).tolerance(0.25).pair(7, 9).end()
        hits = viskorrel.job(tape)

    It is written command by command, or taken from bytes as they stand; bytes(tape) gives them. Where it is at fault, job says so.
    """

    def __init__(self, commands=b""):
        self._bytes = bytearray(commands)

    def load(self, number, geometry):
        """Gives a number, 0 to 255, its geometry, until it is loaded again. Any bytes may be loaded: they are looked at when they are matched."""
        geometry = blob(geometry)
        self._add(LOAD, named(number), len(geometry))
        self._bytes += geometry
        return self

    def tolerance(self, metres):
        """The tolerance of the pairs that follow; before the first it is 0. One below 0 is refused at the next pair; NaN gives no hit."""
        return self._add(TOLERANCE, metres)

    def pair(self, first, second):
        """Matches two numbers: a hit if the least distance between their geometries, by rule 1, is at most the tolerance."""
        return self._add(PAIR, named(first), named(second))

    def end(self):
        """Ends the job. What follows on the tape is ignored."""
        self._bytes.append(END)
        return self

    def _add(self, code, *operands):
        packed = OPERANDS[code].pack(*operands)
        self._bytes.append(code)
        self._bytes += packed
        return self

    @property
    def pairs(self):
        """How many pairs a job matches, if it is not refused before: as many hits as it can have."""
        return sum(code == PAIR for code, _ in commands(self._bytes))

    def __bytes__(self):
        return bytes(self._bytes)

    def __len__(self):
        return len(self._bytes)

    def __eq__(self, other):
        return self._bytes == other._bytes if isinstance(other, Tape) else NotImplemented

    __hash__ = None


def named(number):
    number = operator.index(number)
    if not 0 <= number < NUMBERS:
        raise ValueError(f"{number} is no number of a tape: those are 0 to {NUMBERS - 1}")
    return number


def commands(tape):
    """The commands up to the end, or to the first that is unknown or cut off, each with the bytes that it loads."""
    at = 0
    while at < len(tape) and tape[at] in OPERANDS:
        code, operands, at = tape[at], OPERANDS[tape[at]], at + 1
        end = at + operands.size
        if end > len(tape):
            return
        loaded, at = operands.unpack_from(tape, at)[1] if code == LOAD else 0, end
        if loaded > len(tape) - at:
            return
        yield code, bytes(tape[at:at + loaded])
        at += loaded


def job(tape, capacity=None):
    """The hits of a tape, a Tape or bytes, as a list of Hit. Their order is open.

    Without a capacity there is room for as many hits as the tape has pairs; with one, more hits than it raise Refusal 22. The first number of a
    pair is side 1 of a refusal.
    """
    tape, pairs, lengths = bytes(tape), 0, [0, 0]
    for code, geometry in commands(tape):
        pairs += code == PAIR
        if code == LOAD:
            needed = library().viskorrel_sizes(geometry, len(geometry))
            lengths = [max(lengths[0], needed.first), max(lengths[1], needed.second)]  # 0 of what is refused: it is not read
    for side, (floats, table) in enumerate(MEMORY.sides):
        if len(floats) < lengths[0] or len(table) < lengths[1]:
            MEMORY.lend(side, max(lengths[0], len(floats)), max(lengths[1], len(table)))
    places = pairs if capacity is None else operator.index(capacity)
    if places < 0:
        raise ValueError("the capacity is below 0")
    lists = [(kind * places)() for kind in (ctypes.c_uint16, ctypes.c_uint16, ctypes.c_double)]
    reply = library().viskorrel_job(tape, len(tape), *MEMORY.workspaces, *(part for each in lists for part in (ctypes.addressof(each), places)))
    if reply.outcome == REFUSED:
        raise Refusal(reply.number, reply.side)
    return [Hit(*hit) for hit in zip(*(each[:reply.first] for each in lists))]
