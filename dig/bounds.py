"""The box of a GeoPackage blob in plan, for spatial indexes: any geometry, with Z or without."""
import math
import struct

ENVELOPE = {0: 0, 1: 4, 2: 6, 3: 6, 4: 8}  # doubles, by the header's indicator
LINE, POLYGON, TRIANGLE = 2, 3, 17
COLLECTIONS = (4, 5, 6, 7, 15, 16)


def box(blob):
    """Least and greatest x, least and greatest y; None: the geometry is empty. ValueError: it cannot be read."""
    try:
        if blob[:2] != b"GP":
            return spanned(coordinates(blob, 0)[0])
        order = "<" if blob[3] & 1 else ">"
        doubles = ENVELOPE[blob[3] >> 1 & 7]
        try:
            return spanned(coordinates(blob, 8 + 8 * doubles)[0])
        except KeyError:  # curves bulge beyond their vertices: only the envelope knows how far
            if doubles:
                return struct.unpack_from(order + "4d", blob, 8)
            raise
    except (struct.error, KeyError, IndexError) as fault:
        raise ValueError(f"a geometry cannot be read ({type(fault).__name__} {fault})") from fault


def coordinates(blob, at):
    """All x and all y of a geometry from a place on, and the place after it; KeyError: a kind that is not read."""
    order = "<>"[blob[at] == 0]
    kind = struct.unpack_from(order + "I", blob, at + 1)[0]
    at += 5 + (4 if kind & 0x20000000 else 0)
    low = kind & 0xFFFF
    width = {0: 2 + (kind >> 31) + (kind >> 30 & 1), 1: 3, 2: 3, 3: 4}[low // 1000]
    low %= 1000
    if low == 1:
        return [struct.unpack_from(order + "2d", blob, at)], at + 8 * width
    count = struct.unpack_from(order + "I", blob, at)[0]
    if low == LINE:
        return run(blob, order, at, width)
    if low not in (POLYGON, TRIANGLE) + COLLECTIONS:
        raise KeyError(low)
    found, at = [], at + 4
    for _ in range(count):
        part, at = coordinates(blob, at) if low in COLLECTIONS else run(blob, order, at, width)
        found += part
    return found, at


def run(blob, order, at, width):
    count = struct.unpack_from(order + "I", blob, at)[0]
    numbers = struct.unpack_from(f"{order}{count * width}d", blob, at + 4)
    return list(zip(numbers[0::width], numbers[1::width])), at + 4 + 8 * width * count


def spanned(places):
    places = [place for place in places if not any(math.isnan(number) for number in place)]  # a point of NaN is an empty one
    if not places:
        return None
    xs, ys = zip(*places)
    return min(xs), max(xs), min(ys), max(ys)


def functions(file):
    """The SQL functions that the triggers of a GeoPackage file's spatial indexes call."""
    def of(at):
        def side(blob):
            found = box(blob) if blob is not None else None
            return found[at] if found else None
        return side
    for at, name in enumerate(("ST_MinX", "ST_MaxX", "ST_MinY", "ST_MaxY")):
        file.create_function(name, 1, of(at), deterministic=True)
    file.create_function("ST_IsEmpty", 1, lambda blob: None if blob is None else int(box(blob) is None), deterministic=True)
