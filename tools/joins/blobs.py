"""Blobs from their parts. No blob is read here."""
import struct

FLAG_Z, FLAG_M, FLAG_SRID = 0x80000000, 0x40000000, 0x20000000
ENVELOPE_DOUBLES = (0, 4, 6, 6, 8)  # by indicator


def geometry(code, content, order="<", srid=None):
    """Byte order, type, SRID if there is one, content."""
    head = struct.pack(order + "BI", order == "<", code if srid is None else code | FLAG_SRID)
    return head + (b"" if srid is None else struct.pack(order + "I", srid % 2**32)) + content


def ordinates(order, coordinates):
    return b"".join(struct.pack(f"{order}{len(coordinate)}d", *coordinate) for coordinate in coordinates)


def counted(order, parts):
    return struct.pack(order + "I", len(parts)) + b"".join(parts)


def run(order, coordinates):
    return struct.pack(order + "I", len(coordinates)) + ordinates(order, coordinates)


def point(*coordinate, code=1001, order="<", srid=None):
    return geometry(code, ordinates(order, [coordinate]), order, srid)


def line(*coordinates, code=1002, order="<", srid=None):
    return geometry(code, run(order, coordinates), order, srid)


def face(*rings, code=1003, order="<", srid=None):
    """Of a triangle the code is 1017."""
    return geometry(code, counted(order, [run(order, ring) for ring in rings]), order, srid)


def collection(*members, code=1007, order="<", srid=None):
    return geometry(code, counted(order, members), order, srid)


def nested(inner, levels, order="<", srid=None):
    """A geometry, so many levels deep in collections of one."""
    for _ in range(levels):
        inner = collection(inner, order=order, srid=srid)
    return inner


def gp(inner, srid=0, order="<", indicator=0, flags=0, version=0):
    """Behind a GeoPackage header; what the envelope holds is of no concern."""
    head = struct.pack(order + "2sBBI", b"GP", version, flags | indicator << 1 | (order == "<"), srid % 2**32)
    doubles = ENVELOPE_DOUBLES[indicator] if indicator < len(ENVELOPE_DOUBLES) else 0
    return head + bytes(range(1, 9)) * doubles + inner
