"""Two blobs joined into one collection (document 02, 4/13), written from the words of documents 01 and 02 alone. It has a reader of headers
and a walk of its own, and shares nothing with the library."""
import struct
from collections import namedtuple

ANSWERED, REFUSED = 1, 2
DEEPEST = 32  # the last level; the top is level 0
GP = b"GP"
ENVELOPE_DOUBLES = {0: 0, 1: 4, 2: 6, 3: 6, 4: 8}  # by its indicator
FLAG_Z, FLAG_M, FLAG_SRID = 0x80000000, 0x40000000, 0x20000000
ORDERS = {0: ">", 1: "<"}
POINT, LINE = 1, 2
FACES, COLLECTIONS = {3, 17}, {4, 5, 6, 7, 15, 16}

Answer = namedtuple("Answer", "outcome number side size")
Header = namedtuple("Header", "start srid")     # the geometry's first byte; the SRID of a GP header, else None
Geometry = namedtuple("Geometry", "end level")  # the first byte after it; the deepest level that a geometry in it stands at


class Refused(Exception):
    """A number of the table."""


def require(condition, number):
    if not condition:
        raise Refused(number)


def number(blob, at, order):
    return struct.unpack_from(order + "I", blob, at)[0]


# ---- Headers ----


def gp_header(blob):
    require(len(blob) >= 8, 3)
    version, flags = blob[2], blob[3]
    require(version == 0, 4)
    require(not flags & 0x20, 5)
    require(not flags & 0xC0, 6)
    indicator = flags >> 1 & 7
    require(indicator in ENVELOPE_DOUBLES, 7)
    start = 8 + 8 * ENVELOPE_DOUBLES[indicator]
    require(len(blob) >= start, 8)
    return Header(start, number(blob, 4, ORDERS[flags & 1]))


def has_z_at_the_top(code):
    return bool(code & FLAG_Z) or (code & 0xFFFF) // 1000 in (1, 3)


def header(blob):
    """The GP header, if there is one, and the first five bytes of the geometry."""
    found = gp_header(blob) if blob[:2] == GP else Header(0, None)
    require(len(blob) - found.start >= 5, 9)
    require(blob[found.start] in ORDERS, 10)
    require(has_z_at_the_top(number(blob, found.start + 1, ORDERS[blob[found.start]])), 13)
    return found


# ---- The walk ----


def ordinates(code):
    """How many a coordinate has."""
    thousands = (code & 0xFFFF) // 1000
    if thousands in (1, 2, 3):
        return {1: 3, 2: 3, 3: 4}[thousands]
    return 2 + bool(code & FLAG_Z) + bool(code & FLAG_M)


def count(blob, at, order):
    require(len(blob) - at >= 4, 9)
    return number(blob, at, order), at + 4


def run(blob, at, coordinates, code):
    """The end of a run of coordinates."""
    end = at + 8 * ordinates(code) * coordinates
    require(end <= len(blob), 9)
    return end


def walk(blob, at, level=0):
    require(level <= DEEPEST, 12)
    require(len(blob) - at >= 5, 9)
    require(blob[at] in ORDERS, 10)
    order = ORDERS[blob[at]]
    code = number(blob, at + 1, order)
    at += 5
    if code & FLAG_SRID:
        require(len(blob) - at >= 4, 9)
        at += 4
    kind = (code & 0xFFFF) % 1000
    require(kind in {POINT, LINE} | FACES | COLLECTIONS, 11)
    if kind == POINT:
        return Geometry(run(blob, at, 1, code), level)
    parts, at = count(blob, at, order)
    if kind == LINE:
        return Geometry(run(blob, at, parts, code), level)
    deepest = level
    for _ in range(parts):
        if kind in FACES:
            vertices, at = count(blob, at, order)
            at = run(blob, at, vertices, code)
        else:
            at, below = walk(blob, at, level + 1)
            deepest = max(deepest, below)
    return Geometry(at, deepest)


# ---- The join ----


def srid_of(blob, found):
    """A GP header's, else that of the EWKB header, else 0."""
    if found.srid is not None:
        return found.srid
    order = ORDERS[blob[0]]
    return number(blob, 5, order) if number(blob, 1, order) & FLAG_SRID else 0


def by_side(read, blobs):
    """What is read of each blob, side 1 first; a refusal with its side."""
    found = []
    for side, blob in enumerate(blobs, 1):
        try:
            found.append(read(side, blob))
        except Refused as refused:
            raise Refused(refused.args[0], side) from None
    return found


def joined(blobs, lent):
    """The bytes of the join; `lent` is the length of the output."""
    headers = by_side(lambda side, blob: header(blob), blobs)
    geometries = by_side(lambda side, blob: walk(blob, headers[side - 1].start), blobs)
    srids = [srid_of(blob, found) for blob, found in zip(blobs, headers)]
    require(srids[0] == srids[1], 18)
    require(all(geometry.level + 1 <= DEEPEST for geometry in geometries), 19)
    own = [blob[found.start:geometry.end] for blob, found, geometry in zip(blobs, headers, geometries)]
    whole = struct.pack("<2sBBI", GP, 0, 1, srids[0]) + struct.pack("<BII", 1, 1007, 2) + own[0] + own[1]
    require(len(whole) <= lent, 16)
    return whole


def join(a, b, output):
    """The answer, and the output as it is after the call."""
    try:
        whole = joined((a, b), len(output))
    except Refused as refused:
        refusal, side = (*refused.args, 0)[:2]
        return Answer(REFUSED, refusal, side, 0), output
    return Answer(ANSWERED, 0, 0, len(whole)), whole + output[len(whole):]
