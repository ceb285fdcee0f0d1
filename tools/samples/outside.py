"""What document 01 gives for the blobs of outside.tsv, from their WKT and not from their bytes.

Z and M that are missing are 0, and an empty point is a point of NaNs. Where the producer
wrote an envelope, it must be that of the ordinates expected.
"""
import math
import re
import struct

KINDS = {"POINT": 1, "LINESTRING": 2, "POLYGON": 3, "TRIANGLE": 17}

# the type of the members, for types whose members stand without one
MEMBERS = {
    "MULTIPOINT": "POINT",
    "MULTILINESTRING": "LINESTRING",
    "MULTIPOLYGON": "POLYGON",
    "POLYHEDRALSURFACE": "POLYGON",
    "TIN": "TRIANGLE",
}

# kinds 8 to 12, which the walk refuses with 11
CURVES = ("CIRCULARSTRING", "COMPOUNDCURVE", "CURVEPOLYGON", "MULTICURVE", "MULTISURFACE")

# lines whose third column is no WKT, or not what the producer wrote
INSTEAD = {
    "pg-geom-internal-nan": "POINT Z (NaN NaN NaN)",
    "pg-nan-z": "POINT Z (1 2 NaN)",
    "pg-inf-point": "POINT Z (inf 0 -inf)",
    "pg-2point-line": "LINESTRING Z (1 2 3,1 2 3)",
    "pg-1point-line": "LINESTRING Z (1 2 3)",
    "sl-gpkgmakepointz": "POINT Z (1 2 3)",
    # a collection of empties alone is written as a collection of none, in nine bytes
    "pg-iso-ndr-coll-of-empties": "GEOMETRYCOLLECTION Z EMPTY",
    # this exporter writes an empty point as zeros
    "gdal-old-ndr-emptyz-point": "POINT Z (0 0 0)",
    # a line without Z, written by a writer of three dimensions
    "jts-2d-as-3d": "LINESTRING Z (0 0 NaN,1 1 NaN)",
}

# a blob made by moving another: that one's name, and by how much
MOVED = {
    "pg-var-moved1-phs": ("pg-iso-ndr-z-phs", (11, 11, -7)),
    "pg-var-moved3-tin": ("pg-iso-ndr-z-tin", (-5, 9, 11)),
    "pg-var-moved5-mpolygon": ("pg-ewkb-ndr-z-mpolygon", (-8, -6, 8)),
}

# Where no text has the ordinates: byte order, ordinates of a coordinate, and of each run its
# kind, its coordinates and where their bytes start, counted by hand from the WKB layout.
AT = {
    "pg-buffer-z": ("<", 3, [(3, 9, 13)]),
    "pg-delaunay-tin": (">", 3, [(17, 4, 22 + 109 * i) for i in range(9)]),
    "pg-var-moved10-tin": ("<", 3, [(17, 4, 22), (17, 4, 131)]),
    "pg-var-moved13-line": ("<", 3, [(2, 4, 9)]),
    "pg-var-flat2": ("<", 3, [(3, 9, 13)]),
    "pg-var-flat4": ("<", 3, [(3, 9, 13)]),
    "pkg-world_map-states_provinces-6-2": ("<", 2, [(3, 4, 62)]),
    "pkg-world_map-states_provinces-6-3": ("<", 2, [(3, 4, 62)]),
    "pkg-world_map-countries-6-2": ("<", 2, [(3, 4, 62)]),
    "pkg-world_map-countries-6-3": ("<", 2, [(3, 6, 62)]),
    "pkg-world_map-disputed_borders-5-1": ("<", 2, [(2, 2, 58)]),
    "pkg-world_map-disputed_borders-5-3": ("<", 2, [(2, 3, 58)]),
    "pkg-b_pump-b_pump-1-1": ("<", 2, [(1, 1, 13)]),
    "pkg-buildings-buildings-3-3": ("<", 2, [(3, 4, 53)]),
    "pkg-nc-nc.gpkg-6-1": ("<", 2, [(3, 6, 62)]),
}

# blobs of other formats, by hand: byte order 1 and type 04020108, so kind 264; byte order 0 and
# type 81E61000, so kind 96
OTHER_FORMATS = {"pg-twkb": 11, "sl-internal-tiny": 11}

# the SRID where the producer's column does not say it
SRIDS = {
    "GDAL 3.6.2 PGDump driver EWKB": 4326,
    "SpatiaLite 5.0.1 AsGPB": 4326,
    "SpatiaLite 5.0.1 AsEWKB": 25832,
    "SpatiaLite 5.0.1 gpkgMakePoint": 4326,
    "SpatiaLite 5.0.1 gpkgMakePointZ": 4326,
}


def coordinate(text, dimensions):
    values = [float(v) for v in text.split()]
    return (values[0], values[1], values[2] if "Z" in dimensions else 0.0, values[-1] if "M" in dimensions else 0.0)


def empty_point(dimensions):
    nan = float("nan")
    return (nan, nan, nan if "Z" in dimensions else 0.0, nan if "M" in dimensions else 0.0)


def split(text):
    """The parts between the commas that stand in no parentheses."""
    parts, depth, start = [], 0, 0
    for i, c in enumerate(text):
        depth += (c == "(") - (c == ")")
        if c == "," and depth == 0:
            parts.append(text[start:i])
            start = i + 1
    return parts + [text[start:]]


def body_runs(tag, dimensions, body):
    """The runs of a geometry whose type is known; its body is EMPTY or in parentheses."""
    if body == "EMPTY":
        return [(1, [empty_point(dimensions)])] if tag == "POINT" else []
    inside = body[1:-1]
    if tag in ("POINT", "LINESTRING"):
        return [(KINDS[tag], [coordinate(c, dimensions) for c in inside.split(",")])]
    if tag in ("POLYGON", "TRIANGLE"):
        rings = [ring[1:-1].split(",") for ring in split(inside)]
        return [(KINDS[tag], [coordinate(c, dimensions) for c in ring]) for ring in rings]
    if tag in MEMBERS:
        return [r for b in split(inside) for r in body_runs(MEMBERS[tag], dimensions, b)]
    return [r for g in split(inside) for r in wkt_runs(g)]


def wkt_runs(text):
    tag, dimensions, body = re.fullmatch(r"([A-Z]+) ?(ZM|Z|M|) ?(\(.*\)|EMPTY)", text).groups()
    if tag != "GEOMETRYCOLLECTION" and tag not in KINDS and tag not in MEMBERS:
        raise ValueError(text)
    return body_runs(tag, dimensions, body)


def runs_at(blob, order, width, places):
    """The runs whose bytes start at the given places."""
    runs = []
    for kind, count, start in places:
        values = struct.unpack_from(f"{order}{width * count}d", blob, start)
        run = [values[width * i : width * (i + 1)] for i in range(count)]
        runs.append((kind, [(c[0], c[1], c[2] if width == 3 else 0.0, 0.0) for c in run]))
    return runs


def moved(runs, by):
    return [(kind, [tuple(v + d for v, d in zip(c, (*by, 0.0))) for c in cs]) for kind, cs in runs]


def srid_of(producer, text):
    said = re.search(r"(?:srid|epsg)[ =](\d+)", producer) or re.search(r"srs (\d+)", text)
    if said:
        return int(said.group(1))
    return SRIDS.get(producer, 0)


def runs_of(name, producer, text, blob, texts):
    if name in AT:
        return runs_at(blob, *AT[name])
    if name in MOVED:
        origin, by = MOVED[name]
        return moved(wkt_runs(texts[origin]), by)
    runs = wkt_runs(INSTEAD.get(name, text))
    if producer.startswith("SpatiaLite"):
        # its collections are flat: all points, then all lines, then all polygons
        runs.sort(key=lambda run: run[0])
    return runs


def envelope_agrees(blob, runs):
    """An envelope starts at byte 8 with least x, greatest x, least y, greatest y."""
    if blob[:2] != b"GP" or blob[3] & 0x0E == 0:
        return True
    points = [c for _, coordinates in runs for c in coordinates if not math.isnan(c[0])]
    xs, ys = [c[0] for c in points], [c[1] for c in points]
    return struct.unpack_from("<4d", blob, 8) == (min(xs), max(xs), min(ys), max(ys))


def expected(name, producer, text, blob, texts):
    if name in OTHER_FORMATS:
        return ("refused", OTHER_FORMATS[name])
    if any(curve in text for curve in CURVES):
        return ("refused", 11)
    runs = runs_of(name, producer, text, blob, texts)
    if not envelope_agrees(blob, runs):
        raise ValueError(name)
    return ("read", srid_of(producer, text), runs)


def cases(path):
    with open(path, encoding="utf-8") as file:
        lines = [line.rstrip("\n").split("\t") for line in file][1:]
    texts = {name: text for name, _, text, _ in lines}
    found = []
    for name, producer, text, digits in lines:
        blob = bytes.fromhex(digits)
        found.append((name, blob, expected(name, producer, text, blob, texts)))
    return found
