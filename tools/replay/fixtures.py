"""Writes crates/replay/data/fixtures: document 01's fixtures 4 to 14 and other calls, with the answers written by hand; m by document 02, 1/13.
And crates/replay/data/rules: calls by pair rule 2, and by numbers that are no rule (document 02, 3/13).

    fixtures.py            writes the files
    fixtures.py --list     prints the file, number, operation and name of each record
"""
import pathlib
import sys

sys.dont_write_bytecode = True

import rules
from calls import *
from records import NO_SURFACE, positions


def worked_examples():
    calls(
        "4", ORIGIN, FAR, distance=13, max_distance=13, dwithin=[(13, True), (below(13), False)],
        dfully_within=[(13, True), (below(13), False)], intersects=False, closest_point=(0, 0, 0),
        shortest_line=((0, 0, 0), (3, 4, 12)), longest_line=((0, 0, 0), (3, 4, 12)),
    )
    high, segment = point(0, 0, 5), line((0, 0, 0), (0, 0, 2))
    calls(
        "5", high, segment, distance=3, max_distance=5, intersects=False, closest_point=(0, 0, 5),
        shortest_line=((0, 0, 5), (0, 0, 2)), longest_line=((0, 0, 5), (0, 0, 0)),
    )
    calls(
        "5, sides exchanged", segment, high, distance=3, max_distance=5, closest_point=(0, 0, 2),
        shortest_line=((0, 0, 2), (0, 0, 5)), longest_line=((0, 0, 0), (0, 0, 5)),
    )
    calls(
        "6", line((0, 0, 0), (4, 0, 0)), line((2, -1, 3), (2, 1, 3)), distance=3, max_distance=ROOT_14,
        closest_point=(2, 0, 0), shortest_line=((2, 0, 0), (2, 0, 3)), longest_line=((0, 0, 0), (2, -1, 3)),
    )
    away = line((1, 0, 0), (2, 0, 0))
    calls(
        "7", line((0, 0, 0), (2**-26, 0, 0)), away, distance=1, max_distance=2, closest_point=(0, 0, 0),
        shortest_line=((0, 0, 0), (1, 0, 0)), longest_line=((0, 0, 0), (2, 0, 0)),
    )
    calls("7, twice as long", line((0, 0, 0), (2**-25, 0, 0)), away, distance=1 - 2**-25, max_distance=2)
    through = line((1, 1, -1), (1, 1, 1))
    for kind in (3, 17):
        calls(
            "8", through, face(TRIANGLE, kind=kind), distance=1, intersects=False, max_distance=ROOT_11,
            dwithin=[(1, True), (below(1), False)], longest_line=((1, 1, -1), (4, 0, 0)),
        )
    calls(
        "8, sides exchanged", face(TRIANGLE), through, distance=1, intersects=False, max_distance=ROOT_11,
        longest_line=((4, 0, 0), (1, 1, -1)),
    )


def ties():
    a, b = points((0, 0, 0), (1, 0, 0)), points((0, 0, 2), (1, 0, 2))
    calls(
        "9", a, b, distance=2, max_distance=ROOT_5, closest_point=(0, 0, 0),
        shortest_line=((0, 0, 0), (0, 0, 2)), longest_line=((0, 0, 0), (1, 0, 2)),
    )
    whole = bytes.fromhex("47 50 00 01 E6 10 00 00 01 EA 03 00 00 02 00 00 00") + bytes(24)
    whole += bytes.fromhex("00 00 00 00 00 00 F0 3F") + bytes(8) + bytes.fromhex("00 00 00 00 00 00 00 40")
    calls("9 with SRID 4326", gp(a, 4326), b, longest_line=Expected(1, written=whole))
    calls(
        "9 of lines", line((0, 0, 0), (1, 0, 0)), line((0, 0, 2), (1, 0, 2)), distance=2, max_distance=ROOT_5,
        longest_line=((0, 0, 0), (1, 0, 2)),
    )
    # 1 + 2^-52 is a greater sum of squares than 1, and its root is 1
    one, more = (1, 0, 0), (1, 2**-26, 0)
    calls(
        "equal roots of unequal sums", ORIGIN, points(one, more), distance=1, max_distance=1,
        shortest_line=((0, 0, 0), one), longest_line=((0, 0, 0), one),
    )
    calls(
        "equal roots of unequal sums, the greater first", ORIGIN, points(more, one), distance=1, max_distance=1,
        shortest_line=((0, 0, 0), more), longest_line=((0, 0, 0), more),
    )


def skips():
    """Where the closest sweep's skip shows: interpolation at t = 1 passes the segment's end."""
    one = point(1, 0, 0)
    near = collection(point(0.1, 0, 0), line((-3, 0, 0), (0.1, 0, 0)))
    calls(
        "a segment not skipped", one, near, distance=0.8999999999999999, max_distance=4, intersects=False,
        dwithin=[(0.8999999999999999, True), (0.8999999999999998, False)], closest_point=(1, 0, 0),
        shortest_line=((1, 0, 0), (0.10000000000000009, 0, 0)), longest_line=((1, 0, 0), (-3, 0, 0)),
    )
    long = collection(point(0.10000000000001, 0, 0), line((-1000, 0, 0), (0.1, 0, 0)))
    calls(
        "a segment skipped", one, long, distance=0.89999999999999, max_distance=1001, intersects=False,
        dwithin=[(0.89999999999999, True), (0.8999999999999773, False)], closest_point=(1, 0, 0),
        shortest_line=((1, 0, 0), (0.10000000000001, 0, 0)), longest_line=((1, 0, 0), (-1000, 0, 0)),
    )


def short_runs():
    alone = line((1, 2, 3))
    nothings("11", alone, ORIGIN)
    nothings("11, sides exchanged", ORIGIN, alone)
    nothings("11 on both sides", alone, alone)
    nothings("an empty line", line(), ORIGIN)
    nothings("an empty collection", ORIGIN, collection())
    calls(
        "a one-point line beside a point", collection(line((5, 0, 0)), point(1, 0, 0)), ORIGIN, distance=1,
        max_distance=1, shortest_line=((1, 0, 0), (0, 0, 0)), longest_line=((1, 0, 0), (0, 0, 0)),
    )
    two, up = face([(0, 0, 0), (1, 0, 0)]), point(0, 0, 2)
    calls(
        "12", two, up, distance=None, dwithin=[(INF, False)], intersects=False, closest_point=None,
        shortest_line=None, max_distance=ROOT_5, dfully_within=[(ROOT_5, True), (below(ROOT_5), False)],
        longest_line=((1, 0, 0), (0, 0, 2)),
    )
    calls(
        "12, sides exchanged", up, two, distance=None, dwithin=[(INF, False)], intersects=False,
        closest_point=None, shortest_line=None, max_distance=ROOT_5, longest_line=((0, 0, 2), (1, 0, 0)),
    )
    calls("a one-vertex face", face([(0, 0, 0)]), up, distance=None, max_distance=2)
    hole = face([(0, 0, 0), (9, 0, 0), (0, 9, 0)], [(1, 1, 0), (2, 1, 0), (1, 2, 0)])
    calls(
        "a hole is filled", point(1.25, 1.25, 3), hole, distance=3, max_distance=math.sqrt(70.625),
        longest_line=((1.25, 1.25, 3), (9, 0, 0)),
    )


def odd_ordinates():
    nan = point(NAN, 0, 0)
    calls(
        "13", nan, ORIGIN, distance=NAN, max_distance=NAN, dwithin=[(INF, False)], dfully_within=[(INF, False)],
        intersects=False, closest_point=(NAN, 0, 0), shortest_line=((NAN, 0, 0), (0, 0, 0)),
        longest_line=((NAN, 0, 0), (0, 0, 0)),
    )
    calls(
        "13, sides exchanged", ORIGIN, nan, distance=NAN, max_distance=NAN, closest_point=(0, 0, 0),
        shortest_line=((0, 0, 0), (NAN, 0, 0)), longest_line=((0, 0, 0), (NAN, 0, 0)),
    )
    payload = Shape(head(1) + bytes.fromhex("010203040506F7FF") + bytes(16), nan.runs)
    calls(
        "13 with another payload", payload, ORIGIN, distance=NAN, max_distance=NAN,
        shortest_line=((NAN, 0, 0), (0, 0, 0)), longest_line=((NAN, 0, 0), (0, 0, 0)),
    )
    calls("NaN taken first stays", points((NAN, 0, 0), (5, 0, 0)), ORIGIN, distance=NAN, max_distance=NAN)
    calls("NaN is not taken later", points((5, 0, 0), (NAN, 0, 0)), ORIGIN, distance=5, max_distance=5)
    calls("infinity", point(-INF, 0, 0), ORIGIN, distance=INF, max_distance=INF, dfully_within=[(INF, True)])
    calls("the same infinity", point(INF, 0, 0), point(INF, 0, 0), distance=NAN, max_distance=NAN)
    calls("a square above all", point(1e200, 0, 0), ORIGIN, distance=INF, max_distance=INF)
    calls("a square below all", point(0, LEAST, 0), ORIGIN, distance=0, max_distance=0, intersects=True)
    flat = face([(NAN, 0, 0), (NAN, 1, 0), (NAN, 0, 1)])
    calls("a face of NaN and a face", flat, face(TRIANGLE), distance=INF)
    calls("a face of NaN and a point", flat, ORIGIN, distance=NAN)


def levels():
    at = point(1, 2, 3)
    calls(
        "14, level 32", nested(32, at), at, distance=0, intersects=True, max_distance=0,
        dfully_within=[(0, True)], longest_line=((1, 2, 3), (1, 2, 3)),
    )
    calls("14, level 32 on side 2", at, nested(32, at), distance=0, max_distance=0)
    calls("14, level 32", nested(32, at), NONE, sizes=positions(4, 2))
    refusals("14, level 33", nested(33, at), at, 12, 1)
    refusals("14, level 33 on side 2", at, nested(33, at), 12, 2)
    refusals("14, level 33 on both sides", nested(33, at), nested(33, at), 12, 1)
    calls("14, level 33", nested(33, at), NONE, sizes=refused(12, 1))


def distances():
    at = point(1, 2, 3)
    rows = [(0.0, True), (-0.0, True), (NAN, False), (INF, True)]
    rows += [(d, refused(1, 0)) for d in (-LEAST, -1.0, -INF)]
    calls("d", at, at, dwithin=rows, dfully_within=rows)
    below_zero = [(-1.0, refused(1, 0))]
    calls("d before all else", NONE, raw("4750"), dwithin=below_zero, dfully_within=below_zero)
    calls("d before 15", at, at, dwithin=below_zero, dfully_within=below_zero, more=(-4, -2, -4, -2, 0))


def srids():
    lines = dict(
        closest_point=(0, 0, 0), shortest_line=((0, 0, 0), (3, 4, 12)), longest_line=((0, 0, 0), (3, 4, 12)),
    )
    calls("SRID 0, and B's another", gp(ORIGIN, 0), gp(FAR, 4326), srid=0, **lines)
    calls("no SRID, and B's another", ORIGIN, gp(FAR, 4326), srid=0, **lines)
    calls("A's SRID", gp(ORIGIN, 4326), gp(FAR, 25832), srid=4326, **lines)
    calls("a negative SRID", gp(ORIGIN, -1), FAR, srid=-1, **lines)
    calls("an SRID written big-endian", gp(ORIGIN, 4326, flags=0), FAR, srid=4326, **lines)
    calls("the EWKB SRID", with_srid(ORIGIN, 4326), FAR, srid=4326, **lines)
    calls("the header's SRID, not the EWKB one", gp(with_srid(ORIGIN, 4326), 0), FAR, srid=0, **lines)
    for indicator, count in enumerate((0, 4, 6, 6, 8)):
        a = gp(ORIGIN, 7, flags=1 + 2 * indicator, envelope=b"\xFF" * 8 * count)
        calls("an envelope", a, followed(FAR, b"after"), srid=7, **lines)
    calls("the empty flag", gp(ORIGIN, 7, flags=0x11), FAR, srid=7, **lines)


def lent_memory():
    a, b = line((0, 0, 0), (1, 0, 0)), points((0, 0, 2), (1, 0, 2))
    answers = dict(max_distance=ROOT_5, distance=2, longest_line=((0, 0, 0), (1, 0, 2)))
    calls("more lent than needed", a, b, more=(5, 3, 2, 1, 9), **answers)
    for place in range(4):
        short = tuple(-1 if i == place else 2 for i in range(5))
        refusals("one too few lent", a, b, 15, 1 + place // 2, more=short)
    refusals("both sides short", a, b, 15, 1, more=(0, -1, -1, 0, 0))
    refusals("15 before 16", a, b, 15, 2, more=(0, 0, 0, -1, -1))
    none = line((1, 2, 3))
    for operation in ("closest_point", "shortest_line", "longest_line"):
        for more in (-1, -1000):
            calls("16", a, b, more=(0, 0, 0, 0, more), **{operation: refused(16, 0)})
        calls("16 where the answer is none", none, b, more=(0, 0, 0, 0, -1), **{operation: refused(16, 0)})


# passes it, and is read as (1, 2, 3) or (1, 2, 0) with this m
WITH_Z = [
    (0x80000001, (1, 2, 3), 3, 0), (0x80000000 + 2001, (1, 2, 7), 0, 7), (3001, (1, 2, 3, 9), 3, 9),
    (0xC0000001, (1, 2, 3, 9), 3, 9), (0x40000000 + 1001, (1, 2, 3), 3, 0), (0x80000000 + 4001, (1, 2, 3), 3, 0),
    (0x80000000 + 1001, (1, 2, 3), 3, 0),
]


def faults():
    for shape, number in FAULTS:
        for side in (1, 2):
            a, b = (shape, FAR) if side == 1 else (FAR, shape)
            r = refused(number, side)
            calls("a fault", a, b, distance=r, max_distance=r, longest_line=r)
        calls("a fault", shape, NONE, sizes=refused(number, 1))
    for shape in FLAT:
        refusals("no Z", shape, FAR, 13, 1)
        refusals("no Z on side 2", FAR, shape, 13, 2)
        calls("no Z", shape, NONE, sizes=positions(4, 2))
    for code, ordinates, z, m in WITH_Z:
        shape = point_of_type(code, ordinates, (1, 2, z, m))
        calls("Z by its type", shape, point(1, 2, z), distance=0, max_distance=0, intersects=True)


# XY, XYZ, XYM, XYZM
MIXED = [
    XY, point(3, 4, 12), point_of_type(2001, (7, 8, 9), (7, 8, 0, 9)), point_of_type(3001, (1, 2, 3, 10), (1, 2, 3, 10)),
]


def hours():
    """m stands in the workspace and enters no answer (document 02, 1/13)."""
    xym = point_of_type(0x80000000 + 2001, (3, 4, 99), (3, 4, 0, 99))
    calls(
        "XYM that passes the Z test", xym, ORIGIN, distance=5, max_distance=5, dwithin=[(5, True)],
        closest_point=(3, 4, 0), shortest_line=((3, 4, 0), (0, 0, 0)), longest_line=((3, 4, 0), (0, 0, 0)),
    )
    calls("XYM that passes the Z test, on side 2", ORIGIN, xym, distance=5, max_distance=5)
    for m in (99.5, -0.0, LEAST, -1e300, INF, NAN):
        for name, make in (("XYZM", point_of_type), ("XYZM, big-endian", big_endian_point)):
            a, b = make(3001, (0, 0, 0, m), (0, 0, 0, m)), make(0xC0000001, (3, 4, 12, m), (3, 4, 12, m))
            calls(
                name, a, b, distance=13, max_distance=13, dwithin=[(13, True), (below(13), False)], intersects=False,
                closest_point=(0, 0, 0), shortest_line=((0, 0, 0), (3, 4, 12)), longest_line=((0, 0, 0), (3, 4, 12)),
            )
        rod = line_of_type(3002, [(0, 0, 0, m), (0, 0, 2, 1)], [(0, 0, 0, m), (0, 0, 2, 1)])
        calls("a line of XYZM", rod, NONE, line_interpolate_point=[(0.5, (0, 0, 1))])
        calls("a line of XYZM and a point", rod, point(0, 0, 5), distance=3, max_distance=5, longest_line=((0, 0, 0), (0, 0, 5)))
    payload = Shape(head(1)[:1] + u32(3001) + bytes(24) + bytes.fromhex("010203040506F7FF"), ((1, ((0, 0, 0, NAN),)),))
    calls("an m of another payload", payload, FAR, distance=13, max_distance=13, longest_line=((0, 0, 0), (3, 4, 12)))
    flat = line_of_type(2002, [(0, 0, 5), (2, 0, 6)], [(0, 0, 0, 5), (2, 0, 0, 6)])
    calls("a line of XYM", flat, NONE, line_interpolate_point=[(0.5, (1, 0, 0))])
    mixed = collection(*MIXED)
    calls(
        "XY, XYZ, XYM, XYZM in one", mixed, point(7, 8, 0), distance=0, max_distance=math.sqrt(176), intersects=True,
        shortest_line=((7, 8, 0), (7, 8, 0)), longest_line=((3, 4, 12), (7, 8, 0)),
    )
    # 4N floats are looked for: neither 4N - 1 nor 3N will do
    for shape in (FAR, xym, mixed):
        count = len(shape.ordinates) // 4
        for less in sorted({1, count}):
            refusals(f"{less} floats under 4N", shape, ORIGIN, 15, 1, more=(-less, 3, 5, 5, 9))
            refusals(f"{less} floats under 4N on side 2", ORIGIN, shape, 15, 2, more=(5, 5, -less, 3, 9))
    rod = line((0, 0, 0), (2, 0, 0))
    for less in (1, 2):
        calls(f"{less} floats under 4N", rod, NONE, line_interpolate_point=[(0.5, refused(15, 1))], more=(-less, 3, 0, 0, 9))
    calls("4N floats", rod, NONE, line_interpolate_point=[(0.5, (1, 0, 0))])


def order_of_refusals():
    unknown = raw("01F0030000")
    refusals("header 2 before walk 1", unknown, raw("4750"), 3, 2)
    refusals("13 of side 2 before walk 1", nested(33, FAR), XY, 13, 2)
    refusals("header 1 before header 2", XY, raw("4750"), 13, 1)
    refusals("walk 1 before walk 2", nested(33, FAR), cut(FAR, 1), 12, 1)
    refusals("walk 1 before walk 2, either way", cut(FAR, 1), nested(33, FAR), 9, 1)
    refusals("walk 2 before 15", FAR, cut(FAR, 1), 9, 2, more=(-4, -2, 0, 0, 0))


def interpolations():
    back = line((0, 0, 0), (2, 0, 0), (0, 0, 0), (2, 0, 0))
    outside = [(x, refused(2, 0)) for x in (NAN, -LEAST, above(1), INF, -INF)]
    rows = [(0.5, (1, 0, 0)), (0.0, (0, 0, 0)), (-0.0, (0, 0, 0)), (1.0, (2, 0, 0)), (0.25, (1.5, 0, 0))]
    calls("10", back, NONE, line_interpolate_point=rows + outside)
    calls("2 before all else", raw("4750"), NONE, line_interpolate_point=outside, more=(0, 0, 0, 0, -37))
    two = collection(line((0, 0, 0), (2, 0, 0)), line((10, 0, 0), (12, 0, 0)))
    calls("two lines", two, NONE, line_interpolate_point=[(0.75, (11, 0, 0)), (0.5, (2, 0, 0))])
    calls("length 0", line((3, 1, 2), (3, 1, 2)), NONE, line_interpolate_point=[(0.75, (3, 1, 2))])
    calls("NaN", line((0, 0, 0), (NAN, 0, 0)), NONE, line_interpolate_point=[(0.5, (NAN, NAN, NAN))])
    flat = Shape(b"\x01" + u32(2) + u32(2) + doubles([(0, 0), (2, 0)]), ((2, ((0, 0, 0), (2, 0, 0))),))
    calls("no Z is needed", flat, NONE, line_interpolate_point=[(0.5, (1, 0, 0))])
    calls("A's SRID", gp(back, 4326), NONE, srid=4326, line_interpolate_point=[(0.5, (1, 0, 0))])
    segment = line((0, 0, 0), (2, 0, 0))
    for shape in (ORIGIN, face(TRIANGLE), line((1, 2, 3)), line(), collection(), collection(segment, ORIGIN)):
        calls("14", shape, NONE, line_interpolate_point=[(0.5, refused(14, 1))])
    calls("14 before 15", ORIGIN, NONE, line_interpolate_point=[(0.5, refused(14, 1))], more=(-1, 0, 0, 0, 0))
    for place in range(2):
        short = tuple(-1 if i == place else 2 for i in range(5))
        calls("one too few lent", segment, NONE, line_interpolate_point=[(0.5, refused(15, 1))], more=short)
    calls("15 before 16", segment, NONE, line_interpolate_point=[(0.5, refused(15, 1))], more=(-1, 0, 0, 0, -1))
    calls("16", segment, NONE, line_interpolate_point=[(0.5, refused(16, 0))], more=(0, 0, 0, 0, -1))
    calls("more lent than needed", segment, NONE, line_interpolate_point=[(0.5, (1, 0, 0))], more=(2, 1, 0, 0, 5))
    calls("14, level 32", nested(32, segment), NONE, line_interpolate_point=[(0.5, (1, 0, 0))])
    calls("14, level 33", nested(33, segment), NONE, line_interpolate_point=[(0.5, refused(12, 1))])
    for shape, number in FAULTS:
        calls("a fault", shape, NONE, line_interpolate_point=[(0.5, refused(number, 1))])


def patches():
    first, second = face(TRIANGLE), face(TRIANGLE + TRIANGLE[:1], TRIANGLE)
    ends = [9, 9 + len(first.data), 9 + len(first.data) + len(second.data)]
    for kind in (15, 16):
        surface = collection(first, second, kind=kind)
        for shape, before in ((surface, 0), (gp(surface), 8), (with_srid(surface, 4326), 4)):
            rows = [(n, positions(before + ends[n], before + ends[n + 1])) for n in (0, 1)]
            calls("a surface", shape, NONE, patch=rows + [(2, NOTHING), (2**64 - 1, NOTHING)])
        calls("a surface cut off", cut(surface, 1), NONE, patch=[(n, refused(9, 1)) for n in (0, 1, 2)])
        calls("no count", Shape(surface.data[:5]), NONE, patch=[(0, refused(9, 1))])
        calls("an empty surface", collection(kind=kind), NONE, patch=[(0, NOTHING)])
        bad = collection(first, raw("02EB03000000000000"), kind=kind)
        calls("a patch of byte order 2", bad, NONE, patch=[(0, refused(10, 1)), (1, refused(10, 1))])
    triangle = face(TRIANGLE, kind=17)
    for shape, start in (
        (triangle, 0), (gp(triangle), 8), (followed(triangle, b"after"), 0), (cut(triangle, 70), 0),
        (raw("01F9030000"), 0),
    ):
        calls("a triangle", shape, NONE, patch=[(0, positions(start, len(shape.data))), (1, NOTHING)])
    others = [FAR, line((0, 0, 0), (1, 0, 0)), first, points((1, 2, 3)), collection(first), raw("01F0030000")]
    for shape in others + [gp(triangle, version=1), gp(triangle, flags=0x21), raw("4750"), raw("02F7030000"), NONE]:
        calls("no surface", shape, NONE, patch=[(0, NO_SURFACE), (1, NO_SURFACE)])


def lengths():
    for name, shape, floats, numbers in [
        ("a point", FAR, 4, 2), ("an empty line", line(), 0, 0), ("a one-point line", line((1, 2, 3)), 4, 2),
        ("two rings", face(TRIANGLE, TRIANGLE[:2]), 20, 4), ("an empty ring", face(TRIANGLE, []), 12, 2),
        ("points", points((1, 2, 3), (4, 5, 6)), 8, 4), ("an empty collection", collection(), 0, 0),
        ("GP", gp(collection(FAR, line((0, 0, 0), (1, 0, 0)))), 12, 4), ("bytes after", followed(FAR, b"after"), 4, 2),
        ("XYM", MIXED[2], 4, 2), ("XYZM", MIXED[3], 4, 2), ("all dimensions", collection(*MIXED), 16, 8),
    ]:
        calls(name, shape, NONE, sizes=positions(floats, numbers))


def by_rule_1():
    worked_examples()
    ties()
    skips()
    short_runs()
    odd_ordinates()
    levels()
    distances()
    srids()
    lent_memory()
    faults()
    hours()
    order_of_refusals()
    interpolations()
    patches()
    lengths()


def main():
    here = pathlib.Path(__file__).resolve().parent
    for file, made in (("fixtures", by_rule_1), ("rules", rules.all_calls)):
        CALLS.clear()
        made()
        if sys.argv[1:] == ["--list"]:
            for i, call in enumerate(CALLS):
                print(file, i, call.operation, call.name)
            continue
        data = b"".join(call.record() for call in CALLS)
        if len(data) > ROOM:
            sys.exit(f"{len(data)} bytes; the program holds {ROOM}")
        (here.parent.parent / "crates" / "replay" / "data" / file).write_bytes(data)
        print(file, len(CALLS), "records written")


main()
