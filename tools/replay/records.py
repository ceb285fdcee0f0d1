"""A call with what is expected of it, and its record: crates/replay/data/README.md gives the layout."""
import math
import struct
from dataclasses import dataclass

from shapes import Shape

OPERATIONS = [
    "distance", "max_distance", "dwithin", "dfully_within", "intersects", "closest_point",
    "shortest_line", "longest_line", "line_interpolate_point", "patch", "sizes",
]
OUTPUT = {"closest_point": 37, "shortest_line": 65, "longest_line": 65, "line_interpolate_point": 37}
WORKSPACES = {"line_interpolate_point": 1, "patch": 0, "sizes": 0}
BY_RULE = ("distance", "dwithin", "intersects", "closest_point", "shortest_line")


def pattern(x):
    return 0x7FF8000000000000 if math.isnan(x) else struct.unpack("<Q", struct.pack("<d", x))[0]


@dataclass(frozen=True)
class Expected:
    case: int
    number: int = 0
    side: int = 0
    first: int = 0
    second: int = 0
    written: bytes = b""


NOTHING, YES, NO_SURFACE = Expected(0), Expected(1), Expected(3)


def number(x):
    return Expected(1, first=pattern(x))


def positions(first, second):
    """A part's start and end, or the lengths to lend."""
    return Expected(1, first=first, second=second)


def refused(number, side):
    return Expected(2, number, side)


def blob(srid, coordinates):
    """A point of one coordinate or a line of two, as it is written to the output."""
    head = b"GP\x00\x01" + struct.pack("<i", srid) + b"\x01"
    kind = struct.pack("<I", 1001) if len(coordinates) == 1 else struct.pack("<II", 1002, 2)
    ordinates = [struct.pack("<Q", pattern(v)) for c in coordinates for v in c]
    return Expected(1, written=head + kind + b"".join(ordinates))


@dataclass(frozen=True)
class Call:
    """More, or less, than what is needed may be lent: floats and numbers of side 1, of side 2, bytes of output."""
    name: str
    operation: str
    a: Shape
    b: Shape
    argument: float
    expected: Expected
    more: tuple = (0, 0, 0, 0, 0)
    rule: int = 1  # of an operation that takes one

    def record(self):
        sides = [self.a, self.b][: WORKSPACES.get(self.operation, 2)]
        need = [n for s in sides for n in (len(s.ordinates), len(s.table))] + [0, 0, 0, 0]
        need = need[:4] + [OUTPUT.get(self.operation, 0)]
        lent = [max(0, n + more) for n, more in zip(need, self.more)]
        e = self.expected
        held = [] if e.case == 2 else [(s.ordinates, s.table) for s in sides]
        held = (held + [([], []), ([], [])])[:2]
        words = [OPERATIONS.index(self.operation), len(self.a.data), len(self.b.data), lent[4], len(e.written)]
        words += lent[:4] + [len(x) for pair in held for x in pair] + [e.case, e.number, e.side]
        words.append(self.rule if self.operation in BY_RULE else 0)
        argument = self.argument if self.operation == "patch" else pattern(self.argument)
        data = struct.pack("<17I3Q", *words, argument, e.first, e.second)
        data += self.a.data + self.b.data + e.written
        for ordinates, table in held:
            data += b"".join(struct.pack("<Q", pattern(v)) for v in ordinates)
            data += b"".join(struct.pack("<I", n) for n in table)
        return data
