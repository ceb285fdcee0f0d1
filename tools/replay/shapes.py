"""Blobs from coordinates: a shape is its bytes, with the runs that documents 01 and 02 (1/13: m) read from them.

Everything is written little-endian, as ISO WKB with Z (type 1000 + kind) unless a type is given.
"""
import struct
from dataclasses import dataclass

TYPE_Z = 1000


@dataclass(frozen=True)
class Shape:
    """Bytes, and (kind, coordinates) of each run that has a coordinate, which is (x, y, z) or (x, y, z, m)."""
    data: bytes
    runs: tuple = ()

    @property
    def ordinates(self):
        """Four of each coordinate; an m that is not there is 0."""
        return [v for _, coordinates in self.runs for c in coordinates for v in (*c, 0.0)[:4]]

    @property
    def table(self):
        return [n for kind, coordinates in self.runs for n in (kind, len(coordinates))]


def u32(n):
    return struct.pack("<I", n)


def doubles(coordinates):
    return b"".join(struct.pack("<d", v) for c in coordinates for v in c)


def head(kind):
    return b"\x01" + u32(TYPE_Z + kind)


def kept(kind, coordinates):
    return ((kind, tuple(coordinates)),) if coordinates else ()


def point(*c):
    return Shape(head(1) + doubles([c]), kept(1, [c]))


def line(*coordinates):
    return Shape(head(2) + u32(len(coordinates)) + doubles(coordinates), kept(2, coordinates))


def face(*rings, kind=3):
    """A polygon, or a triangle (kind 17), of rings that are lists of coordinates."""
    data = head(kind) + u32(len(rings))
    data += b"".join(u32(len(ring)) + doubles(ring) for ring in rings)
    return Shape(data, sum((kept(kind, ring) for ring in rings), ()))


def collection(*members, kind=7):
    data = head(kind) + u32(len(members)) + b"".join(m.data for m in members)
    return Shape(data, sum((m.runs for m in members), ()))


def points(*coordinates):
    return collection(*[point(*c) for c in coordinates], kind=4)


def nested(levels, shape):
    """The shape in so many collections, each in the next."""
    for _ in range(levels):
        shape = collection(shape)
    return shape


def point_of_type(code, ordinates, c):
    """A point of any type code, with its ordinates as written and the coordinate as read."""
    return Shape(b"\x01" + u32(code) + doubles([ordinates]), kept(1, [c]))


def big_endian_point(code, ordinates, c):
    return Shape(struct.pack(f">BI{len(ordinates)}d", 0, code, *ordinates), kept(1, [c]))


def line_of_type(code, ordinates, coordinates):
    """A line of any type code, in the same way."""
    return Shape(b"\x01" + u32(code) + u32(len(ordinates)) + doubles(ordinates), kept(2, coordinates))


def with_srid(shape, srid):
    """EWKB: the SRID flag, and the SRID after the type."""
    code = struct.unpack("<I", shape.data[1:5])[0] | 0x20000000
    return Shape(b"\x01" + u32(code) + u32(srid) + shape.data[5:], shape.runs)


def gp(shape, srid=0, flags=1, version=0, envelope=b""):
    """A GeoPackage blob. Bit 0 of the flags is the byte order of its SRID."""
    order = "<" if flags & 1 else ">"
    data = b"GP" + bytes([version, flags]) + struct.pack(order + "i", srid) + envelope
    return Shape(data + shape.data, shape.runs)


def cut(shape, by):
    return Shape(shape.data[:-by], shape.runs)


def followed(shape, data):
    return Shape(shape.data + data, shape.runs)


def raw(text):
    """Bytes in hexadecimal, which no reading accepts."""
    return Shape(bytes.fromhex(text))
