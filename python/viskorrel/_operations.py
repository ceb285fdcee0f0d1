"""The operations on one or two geometries."""
import ctypes
import threading

from ._geometry import blob
from ._library import ANSWERED, COORDINATE_FLOATS, JOIN_BYTES, LINE_BYTES, NO_SURFACE, POINT_BYTES, REFUSED, RUN_NUMBERS, library
from ._refusal import Refusal
from ._rule import rule_number

TOO_SHORT = 15  # the refusal of a workspace


class Memory(threading.local):
    """What is lent, one for each thread; it grows with the largest geometries, and changes no answer."""

    def __init__(self):
        self.sides = [None, None]
        self.lend(0, COORDINATE_FLOATS, RUN_NUMBERS)
        self.lend(1, COORDINATE_FLOATS, RUN_NUMBERS)
        self.output = ctypes.create_string_buffer(LINE_BYTES)

    def lend(self, side, floats, table):
        lent = (ctypes.c_double * floats)(), (ctypes.c_uint32 * table)()
        self.sides[side] = lent
        self.workspaces = [part for lent in self.sides if lent
                           for part in (ctypes.addressof(lent[0]), len(lent[0]), ctypes.addressof(lent[1]), len(lent[1]))]

    def lengthen(self, side, geometry):
        needed = library().viskorrel_sizes(geometry, len(geometry))
        floats, table = self.sides[side]
        self.lend(side, max(needed.first, len(floats)), max(needed.second, len(table)))


MEMORY = Memory()


def given(blobs):
    """Each with its length."""
    return [part for geometry in blobs for part in (geometry, len(geometry))]


def ask(name, blobs, numbers=(), output=()):
    """The reply to a call. A workspace is looked at last, and a refused call changes nothing: where it is too short, lengthen, ask again."""
    function, sides = getattr(library(), name), given(blobs)
    for _ in range(3):
        reply = function(*sides, *numbers, *MEMORY.workspaces[:4 * len(blobs)], *output)
        if reply.outcome != REFUSED or reply.number != TOO_SHORT:
            break
        MEMORY.lengthen(reply.side - 1, blobs[reply.side - 1])
    return accepted(reply, blobs)


def accepted(reply, blobs):
    """The reply; a refusal is raised, with the geometry that it speaks of."""
    if reply.outcome == REFUSED:
        raise Refusal(reply.number, reply.side, blobs[reply.side - 1] if reply.side else None)
    return reply


def value(name, a, b, numbers=()):
    reply = ask(name, (blob(a), blob(b)), numbers)
    return reply.value if reply.outcome == ANSWERED else None


def written(name, length, blobs, numbers=()):
    output = MEMORY.output
    reply = ask(name, blobs, numbers, (ctypes.addressof(output), length))
    return output.raw[:length] if reply.outcome == ANSWERED else None


# The five operations by the least distance take a rule. By 1 a segment that passes through a triangle is measured at its ends and at the
# triangle's edges; by 2 it touches the triangle where it crosses. Any other number raises Refusal 17.

def distance(a, b, rule=1):
    """The least distance (may be NaN) by a rule; None where a side has nothing to measure."""
    return value("viskorrel_3d_distance", a, b, (rule_number(rule),))


def max_distance(a, b):
    """The greatest distance between vertices (may be NaN); None where a side has none."""
    return value("viskorrel_3d_max_distance", a, b)


def intersects(a, b, rule=1):
    """Whether the least distance by a rule is 0."""
    return ask("viskorrel_3d_intersects", (blob(a), blob(b)), (rule_number(rule),)).outcome == ANSWERED


def dwithin(a, b, d, rule=1):
    """Whether the least distance by a rule is at most d."""
    return ask("viskorrel_3d_dwithin", (blob(a), blob(b)), (d, rule_number(rule))).outcome == ANSWERED


def dfully_within(a, b, d):
    """Whether the greatest distance is at most d."""
    return ask("viskorrel_3d_dfully_within", (blob(a), blob(b)), (d,)).outcome == ANSWERED


def closest_point(a, b, rule=1):
    """The point of a at the least distance by a rule, a GeoPackage blob; None where a side has nothing to measure."""
    return written("viskorrel_3d_closest_point", POINT_BYTES, (blob(a), blob(b)), (rule_number(rule),))


def shortest_line(a, b, rule=1):
    """The line from a to b at the least distance by a rule, a GeoPackage blob; None where a side has nothing to measure."""
    return written("viskorrel_3d_shortest_line", LINE_BYTES, (blob(a), blob(b)), (rule_number(rule),))


def longest_line(a, b):
    """The line from a vertex of a to one of b at the greatest distance, a GeoPackage blob; None where a side has none."""
    return written("viskorrel_3d_longest_line", LINE_BYTES, (blob(a), blob(b)))


def line_interpolate_point(line, fraction):
    """The point at a fraction of the length of the geometry's lines, a GeoPackage blob."""
    return written("viskorrel_3d_line_interpolate_point", POINT_BYTES, (blob(line),), (fraction,))


def join(a, b):
    """Both geometries as one, a GeoPackage blob: a collection of the two, the bytes of each as they stand.

    The SRIDs must be equal (else Refusal 18), and no geometry may come to stand more than 32 levels deep (19).
    """
    blobs = blob(a), blob(b)
    output = ctypes.create_string_buffer(sum(map(len, blobs)) + JOIN_BYTES)  # always enough
    reply = accepted(library().viskorrel_join(*given(blobs), ctypes.addressof(output), len(output)), blobs)
    return ctypes.string_at(output, reply.first)


class NoSurface(ValueError):
    """The geometry is no polyhedral surface, TIN or triangle, or what stands before its content is at fault."""


def ask_of(name, geometry, *numbers):
    """The reply to a question about one geometry, for which no memory is lent."""
    reply = accepted(getattr(library(), name)(geometry, len(geometry), *numbers), (geometry,))
    if reply.outcome == NO_SURFACE:
        raise NoSurface("the geometry is no surface")
    return reply


def patch(surface, n):
    """Patch n of a surface, counted from 0, as bare WKB; None where there is no patch n."""
    if not 0 <= n < 2**64:
        raise ValueError("n is not within 0..2^64-1")
    geometry = blob(surface)
    pair = ask_of("viskorrel_patch", geometry, n)
    return geometry[pair.first:pair.second] if pair.outcome == ANSWERED else None


def patches(surface):
    """All patches of a surface in order, as bare WKB; each is scanned twice, however many there are."""
    geometry = blob(surface)
    listed = ask_of("viskorrel_patches", geometry)
    found, at = [], listed.first
    for left in range(listed.second, 0, -1):
        pair = ask_of("viskorrel_next_patch", geometry, at, left)
        found.append(geometry[pair.first:pair.second])
        at = pair.second
    return found


def refusal(geometry):
    """None, or the Refusal that the geometry gets as a side of an operation on two."""
    try:
        reply = ask_of("viskorrel_blob_refusal", blob(geometry))
    except Refusal as refused:
        return refused.with_traceback(None)
    if reply.outcome != ANSWERED:
        raise MemoryError
    return None


def read(geometry):
    """The points, lines and rings of a geometry with Z, as the library reads them: a list of (kind, coordinates).

    kind is 1 for a point, 2 for a line, 3 for a polygon's ring, 17 for a triangle's; a coordinate is (x, y, z, m), m being 0.0 where the
    geometry has no M. It may be NaN, and no measure depends on it.
    """
    geometry = blob(geometry)
    refused = refusal(geometry)  # a geometry without Z could be read, with heights of 0 that nobody measured
    if refused is not None:
        raise refused
    filled = ask("viskorrel_read", (geometry,))
    floats, table = MEMORY.sides[0]
    runs, at = [], 0
    for place in range(0, filled.second, RUN_NUMBERS):
        kind, count = table[place:place + RUN_NUMBERS]
        ordinates = floats[at:at + COORDINATE_FLOATS * count]
        runs.append((kind, list(zip(*(ordinates[axis::COORDINATE_FLOATS] for axis in range(COORDINATE_FLOATS))))))
        at += COORDINATE_FLOATS * count
    return runs


def sizes(geometry):
    """The lengths of the workspace that a geometry takes: floats (four for each coordinate) and numbers (two for each run)."""
    pair = ask_of("viskorrel_sizes", blob(geometry))
    return pair.first, pair.second


def library_version():
    """The version of the shared object; the package's own is __version__."""
    return library().viskorrel_version().decode()
