"""The distance by rule 1 of blobs that hold points only, by document 01's words: headers, walk, workspace, and the sum of squares. What else
has a distance is beyond it: NotSimple is raised."""
import math
import struct

from model import Refused

FLOATS, NUMBERS = 4, 2  # what a coordinate takes of the floats, and a run of the table
DEEPEST = 32
ENVELOPE_DOUBLES = (0, 4, 6, 6, 8)  # by indicator
FLAG_Z, FLAG_M, FLAG_SRID = 0x80000000, 0x40000000, 0x20000000
POINT, LINE, RINGS, COLLECTIONS = 1, 2, (3, 17), (4, 5, 6, 7, 15, 16)


class NotSimple(Exception):
    """There is a segment or a face."""


class Side:
    """A blob, read as one side of an operation on two."""

    def __init__(self, side, blob):
        self.side, self.blob, self.at, self.runs = side, blob, 0, []

    def require(self, condition, number):
        if not condition:
            raise Refused(number, self.side)

    def header(self):
        if self.blob[:2] == b"GP":
            self.package_header()
        self.require(len(self.blob) - self.at >= 5, 9)
        self.require(self.blob[self.at] <= 1, 10)
        code = struct.unpack_from("<I" if self.blob[self.at] else ">I", self.blob, self.at + 1)[0]
        self.require(code & FLAG_Z or (code & 0xFFFF) // 1000 in (1, 3), 13)

    def package_header(self):
        self.require(len(self.blob) >= 8, 3)
        version, flags = self.blob[2:4]
        self.require(version == 0, 4)
        self.require(not flags & 0x20, 5)
        self.require(not flags & 0xC0, 6)
        indicator = flags >> 1 & 7
        self.require(indicator < len(ENVELOPE_DOUBLES), 7)
        self.at = 8 + 8 * ENVELOPE_DOUBLES[indicator]
        self.require(len(self.blob) >= self.at, 8)

    def take(self, size):
        """So many bytes from here on, and past them."""
        self.require(len(self.blob) - self.at >= size, 9)
        self.at += size
        return self.blob[self.at - size:self.at]

    def count(self, order):
        return struct.unpack(order + "I", self.take(4))[0]

    def walk(self, level=0):
        self.require(level <= DEEPEST, 12)
        self.require(len(self.blob) - self.at >= 5, 9)
        self.require(self.blob[self.at] <= 1, 10)
        order = "<" if self.take(1)[0] else ">"
        code = self.count(order)
        if code & FLAG_SRID:
            self.take(4)
        kind, dimensions = (code & 0xFFFF) % 1000, dimensions_of(code)
        self.require(kind in (POINT, LINE, *RINGS, *COLLECTIONS), 11)
        if kind == POINT:
            self.run(kind, order, 1, dimensions)
        elif kind == LINE:
            self.run(kind, order, self.count(order), dimensions)
        else:
            for _ in range(self.count(order)):
                if kind in RINGS:
                    self.run(kind, order, self.count(order), dimensions)
                else:
                    self.walk(level + 1)

    def run(self, kind, order, count, dimensions):
        z, m = dimensions
        ordinates = self.take(8 * (2 + z + m) * count)
        places = [(*place[:2], place[2] if z else 0.0) for place in struct.iter_unpack(f"{order}{2 + z + m}d", ordinates)]
        if places:
            self.runs.append((kind, places))

    def fits(self, floats, table):
        self.require(floats >= FLOATS * sum(len(places) for _, places in self.runs) and table >= NUMBERS * len(self.runs), 15)

    def points(self):
        """All points; a line of one has nothing to measure, nor has a ring of under three."""
        for kind, places in self.runs:
            if kind == LINE and len(places) > 1 or kind in RINGS and len(places) > 2:
                raise NotSimple
        return [places[0] for kind, places in self.runs if kind == POINT]


def dimensions_of(code):
    thousands = (code & 0xFFFF) // 1000
    if thousands in (1, 2, 3):
        return thousands != 2, thousands != 1
    return bool(code & FLAG_Z), bool(code & FLAG_M)


def distance(one, other):
    x, y, z = (a - b for a, b in zip(one, other))
    return math.sqrt(x * x + y * y + z * z)


def measure_by(floats1, table1, floats2, table2):
    """`measure` of model.job, with workspaces of these lengths."""
    def measure(a, b):
        one, two = sides = Side(1, a), Side(2, b)
        for side in sides:
            side.header()
        for side in sides:
            side.walk()
        one.fits(floats1, table1)
        two.fits(floats2, table2)
        best = None
        for p in one.points():
            for q in two.points():
                far = distance(p, q)
                if best is None or far < best:
                    best = far
        return best
    return measure
