"""The box test: the same list with and without it, on random data and near the tolerance; and that it does pass pairs over."""
import math
import random
import struct

import corridors
from common import body, content, point, run, told


def tests(t):
    import dig.build
    import viskorrel
    viskorrel.load(dig.build.library())
    lists(t)
    pairs(t, viskorrel)
    edges(t, viskorrel)
    faults(t, viskorrel)


def lists(t):
    """Whole lists, by the command."""
    for name, path, more in [("corridor", corridors.make(t.path(), 40, 10, 600), []), ("strewn", strewn(t), ["--tolerance", "5"]),
                             ("near the tolerance", edge_file(t), []), ("lines and faces", shapes_file(t), ["--tolerance", "3"])]:
        with_boxes, without = run(path, "--csv", path + ".1.csv", *more), run(path, "--csv", path + ".2.csv", "--no-box-test", *more)
        made = [line for line in with_boxes.stdout.splitlines() if not line.startswith("made")]
        same = made == [line for line in without.stdout.splitlines() if not line.startswith("made")]
        t.check(f"the same list without the box test: {name}", with_boxes.returncode == 0 == without.returncode and same and "NEW" in with_boxes.stdout
                and "struck off" in body(with_boxes.stdout).partition("state")[2], told(with_boxes) + told(without))
        undated = [[cell for cell in line.split(b",") if b":" not in cell] for line in content(path + ".1.csv").splitlines()]
        t.check(f"and the same CSV: {name}", undated == [[cell for cell in line.split(b",") if b":" not in cell] for line in content(path + ".2.csv").splitlines()])


def filled(t, dents, struck):
    """The demo's file with other dents and struck-off dents, as blobs."""
    return t.changed(("DELETE FROM dents",), ("DELETE FROM struck_off",),
                     *[("INSERT INTO dents (geom, dent_group) VALUES (?, ?)", blob, "ABCD"[n % 4]) for n, blob in enumerate(dents)],
                     *[("INSERT INTO struck_off (geom) VALUES (?)", blob) for blob in struck])


def strewn(t):
    random.seed(2)
    return filled(t, *[[point(*(random.uniform(-60, 60) for _ in range(3))) for _ in range(300)] for _ in range(2)])


def edge_file(t):
    """Around each dent many struck-off ones at the tolerance to the last digits."""
    random.seed(3)
    dents, struck = [], []
    for n in range(60):
        x, y, z = 500000 + 7 * n, 5600000.0 + 0.1 * n, -2.0
        dents.append(point(x, y, z))
        for _ in range(6):
            far = 0.25 * (1 + random.choice([0, 1, -1, 3, -3]) * 2.0 ** -random.randint(30, 52))
            a, b = random.uniform(0, 2 * math.pi), random.uniform(-1, 1)
            struck.append(point(x + far * math.cos(a) * math.cos(b), y + far * math.sin(a) * math.cos(b), z + far * math.sin(b)))
    random.shuffle(struck)
    return filled(t, dents, struck)


def shape(kind, places):
    """A point, line or face of places, as a GeoPackage blob."""
    coordinates = b"".join(struct.pack("<3d", *place) for place in places)
    head = struct.pack("<2sBBiBI", b"GP", 0, 1, 32633, 1, 1000 + kind)
    return head + (coordinates if kind == 1 else struct.pack("<I", len(places)) + coordinates if kind == 2
                   else struct.pack("<II", 1, len(places)) + coordinates)


def any_shape(size, spread, kinds=(1, 2, 3)):
    middle = [random.uniform(-spread, spread) for _ in range(3)]
    kind = random.choice(kinds)
    places = [tuple(m + random.uniform(-size, size) for m in middle) for _ in range({1: 1, 2: random.randint(2, 6), 3: 4}[kind])]
    return shape(kind, places + places[:1] if kind == 3 else places)


def shapes_file(t):
    random.seed(4)
    return filled(t, *[[any_shape(1, 30) for _ in range(150)] for _ in range(2)])


def same(t, viskorrel, name, a, b, passes_over=True):
    with_boxes, without = viskorrel.nearest(a, b), viskorrel.nearest(a, b, boxes=False)
    alike = with_boxes.places == without.places and [struct.pack("<d", d) for d in with_boxes.distances] == [struct.pack("<d", d) for d in without.distances]
    t.check(f"nearest, box test: {name}", alike and without.measured == len(a) * len(b) and (with_boxes.measured < without.measured) == passes_over,
            f"{with_boxes.measured} of {without.measured} measured")
    return with_boxes, without


def pairs(t, viskorrel):
    """Against one distance after the other, and against the run without boxes."""
    random.seed(5)
    for round_ in range(30):
        size, spread = 10 ** random.uniform(-6, 6), 10 ** random.uniform(-6, 7)
        kinds = random.choice([(1,), (2,), (1, 2), (1, 2, 3)])
        a, b = ([any_shape(size, spread, kinds) for _ in range(40)] for _ in range(2))
        found = viskorrel.nearest(a, b)
        right = all((distance, place) == min((viskorrel.distance(one, other), at) for at, other in enumerate(b))
                    for one, distance, place in zip(a, found.distances, found.places))
        t.check(f"nearest is the least distance, the first of several: {kinds}, size {size:.0e}, spread {spread:.0e}", right)
    a, b = ([any_shape(1, 1000, (1, 2)) for _ in range(400)] for _ in range(2))
    same(t, viskorrel, "points and lines", a, b)
    found, _ = same(t, viskorrel, "faces are always measured", a, [any_shape(1, 1000, (3,)) for _ in range(50)], passes_over=False)
    many = [shape(1, [tuple(random.uniform(0, 1e4) for _ in range(3))]) for _ in range(2000)]
    found, _ = same(t, viskorrel, "4,000,000 pairs", many, many[::-1])
    t.check("most pairs are passed over", found.measured < 4_000_000 / 20, str(found.measured))
    one, two = viskorrel.nearest(many, many[::-1], threads=1), viskorrel.nearest(many, many[::-1], threads=3)
    t.check("threads change nothing", one.places == two.places and one.distances == two.distances)


def edges(t, viskorrel):
    """Distances that differ in the last digits, or not at all, far from the origin: where rounding decides."""
    random.seed(6)
    for where in (0.0, 1.0, 5.6e6, 2.0 ** 40, 1e15):
        for kind in (1, 2):
            a, b = [], []
            for _ in range(60):
                place = [where + random.uniform(-1, 1) for _ in range(3)]
                a.append(shape(kind, [tuple(place)] if kind == 1 else [tuple(place), tuple(p + random.uniform(-1, 1) for p in place)]))
                for _ in range(4):
                    near = tuple(p + random.choice([0.0, 0.25, -0.25]) * (1 + random.choice([0, 1, -1]) * 2.0 ** -random.randint(20, 52)) for p in place)
                    b.append(shape(kind, [near] if kind == 1 else [near, tuple(p + random.choice([0.0, 1e-9, 1.0]) for p in near)]))
            same(t, viskorrel, f"ties and neighbours at {where:g}, kind {kind}", a, b, passes_over=where < 1e15)
    # a line whose end is passed by rounding: its computed distance is below the distance of the boxes, and below the least so far
    a, b = [shape(1, [(1.0, 0.0, 0.0)])], [shape(1, [(0.10000000000001, 0.0, 0.0)]), shape(2, [(-1000.0, 0.0, 0.0), (0.1, 0.0, 0.0)])]
    found = viskorrel.nearest(a, b)
    t.check("a computed distance below that of the boxes is not passed over", (found.places[0], found.distances[0]) == (1, 0.8999999999999773),
            f"{found.places[0]} {found.distances[0]}")


def faults(t, viskorrel):
    good = [shape(1, [(float(n), 0.0, 0.0)]) for n in range(5)]
    for name, bad in [("refused", b"GP"), ("not finite", shape(1, [(1e300, 0.0, 0.0)])), ("NaN", shape(1, [(math.nan, 0.0, 0.0)])),
                      ("nothing", shape(2, [(0.0, 0.0, 0.0)]))]:
        for a, b in ((good, good[:3] + [bad]), (good[:2] + [bad], good)):
            told_of = [{at: (place, str(fault)) for at, (place, fault) in viskorrel.nearest(a, b, boxes=boxes).faults.items()} for boxes in (True, False)]
            t.check(f"a fault is told with boxes and without: {name}", told_of[0] == told_of[1] and told_of[0], str(told_of))
    t.check("none to look among", list(viskorrel.nearest(good, []).faults) == [] and len(viskorrel.nearest([], good).places) == 0)
