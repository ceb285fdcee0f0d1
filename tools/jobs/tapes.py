"""Tapes from their parts, and blobs to load whose distances are simple. Nothing is read here."""
import math
import struct

KNOWN = (1, 2, 3, 4)  # the commands that there are
END = b"\4"


def load(number, blob):
    return struct.pack("<BBI", 1, number, len(blob)) + blob


def tolerance(metres):
    return b"\2" + struct.pack("<d", metres)


def tolerance_bits(pattern):
    return b"\2" + struct.pack("<Q", pattern)


def match(first, second):
    return bytes([3, first, second])


def point(x, y=0.0, z=0.0, code=1001, order="<"):
    return struct.pack(order + "BI3d", order == "<", code, x, y, z)


def points(*places):
    """A multipoint."""
    return struct.pack("<BII", 1, 1004, len(places)) + b"".join(point(*place) for place in places)


def line(*places):
    return struct.pack("<BII", 1, 1002, len(places)) + b"".join(struct.pack("<3d", *place) for place in places)


def collection(*members, code=1007):
    return struct.pack("<BII", 1, code, len(members)) + b"".join(members)


def nested(inner, levels):
    for _ in range(levels):
        inner = collection(inner)
    return inner


def gp(inner, flags=1, version=0, envelope=b""):
    return b"GP" + struct.pack("<BBi", version, flags, 4326) + envelope + inner


O, NAN = point(0.0), point(math.nan)

# blobs at fault, each with the number that it is refused with
FAULTY = [
    (3, b"GP"), (3, b"GP\0\1\0\0\0"), (4, gp(O, version=1)), (5, gp(O, flags=0x21)), (6, gp(O, flags=0x41)), (6, gp(O, flags=0x81)),
    (7, gp(O, flags=0x0B)), (7, gp(O, flags=0x0F)), (8, gp(b"", flags=9, envelope=bytes(63))), (9, b""), (9, O[:4]), (9, O[:28]), (9, gp(b"")),
    (9, struct.pack("<BII", 1, 1002, 2**32 - 1)), (10, b"\2" + O[1:]), (10, collection(b"\2" + O[1:])), (11, point(0.0, code=1008)),
    (12, nested(O, 33)), (13, point(0.0, code=1)), (13, point(0.0, code=2001))]
