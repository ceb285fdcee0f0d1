"""Calls by pair rule 2, and by numbers that are no rule: document 02, 3/13."""
from calls import *

ROD = line((1, 1, -1), (1, 1, 1))
PLATE = face(TRIANGLE, kind=17)
LARGE = face([(0, 0, 0), (8, 0, 0), (0, 8, 0)])
SQUARE = face([(0, 0, 0), (1, 0, 0), (1, 3, 0), (0, 3, 0)])
NO_RULES = (0, 3, 255, 2**32 - 1)


def rods_through_plates():
    for plate in (PLATE, face(TRIANGLE), face(TRIANGLE + TRIANGLE[:1])):
        touch("8 by rule 2", ROD, plate, (1, 1, 0))
        touch("8 by rule 2, sides exchanged", plate, ROD, (1, 1, 0))
        calls(
            "8 by rule 1", ROD, plate, distance=1, intersects=False, closest_point=(1, 1, -1),
            shortest_line=((1, 1, -1), (1, 1, 0)),
        )
    touch("A's SRID", gp(ROD, 4326), gp(PLATE, 25832), (1, 1, 0), srid=4326)
    touch("from above", line((1, 1, 1), (1, 1, -1)), PLATE, (1, 1, 0))
    touch("a quarter of the way", line((1, 1, -1), (1, 1, 3)), PLATE, (1, 1, 0))
    touch("aslant", line((0, 0, -1), (2, 2, 1)), PLATE, (1, 1, 0))
    touch("through a corner", line((0, 0, -1), (0, 0, 1)), PLATE, (0, 0, 0))
    touch("through an edge", line((2, 2, -1), (2, 2, 1)), PLATE, (2, 2, 0))
    touch("the first of two segments that cross", line((1, 1, -1), (1, 1, 1), (2, 1, -1)), PLATE, (1, 1, 0))
    touch("the first of two plates", ROD, collection(face([(0, 0, 0.5), (4, 0, 0.5), (0, 4, 0.5)]), PLATE), (1, 1, 0.5))
    touch("points come first", collection(line((2, 1, -1), (2, 1, 1)), point(1, 1, 0)), PLATE, (1, 1, 0))
    touch("a rod through a hole, which is filled", ROD, face([(0, 0, 0), (9, 0, 0), (0, 9, 0)], TRIANGLE), (1, 1, 0))
    touch("through the second triangle of a fan", line((0.25, 2, -1), (0.25, 2, 1)), SQUARE, (0.25, 2, 0))
    for rule in (1, 2):
        calls(
            "beside the plate", line((3, 3, -1), (3, 3, 1)), PLATE, rule=rule, distance=math.sqrt(2), intersects=False,
            dwithin=[(math.sqrt(2), True), (below(math.sqrt(2)), False)], closest_point=(3, 3, 0),
            shortest_line=((3, 3, 0), (2, 2, 0)),
        )
        for ends in (((1, 1, 0), (1, 1, 1)), ((1, 1, 1), (1, 1, 0)), ((1, 1, 0), (2, 1, 0))):
            calls(
                "an end on the plate", line(*ends), PLATE, rule=rule, distance=0, intersects=True, closest_point=(1, 1, 0),
                shortest_line=((1, 1, 0), (1, 1, 0)),
            )
        calls("short of the plate", line((1, 1, 1), (1, 1, 0.5)), PLATE, rule=rule, distance=0.5, intersects=False)
        # on the diagonal of the fan, and by a rounding in neither triangle
        calls(
            "through the diagonal of a fan", line((0.2, 0.6, -1), (0.2, 0.6, 1)), SQUARE, rule=rule, distance=2**-55,
            intersects=False,
        )


def plates_through_plates():
    small = face([(1, 1, -1), (1, 1, 1), (1, -4, 0)])
    touch("by the first triangle's edge", small, LARGE, (1, 1, 0))
    touch("by the first triangle's edge, exchanged", LARGE, small, (1, 0, 0))
    # 4 / root of 26, rounded
    calls("plate through plate by rule 1", small, LARGE, distance=0.7844645405527361, intersects=False)
    two = face([(1, 1, -1), (1, 1, 1), (1, 3, -1)])
    touch("by the first edge that crosses", two, LARGE, (1, 1, 0))
    touch("by the second triangle's first edge that crosses", LARGE, two, (1, 1, 0))
    touch("by the second edge", face([(1, 3, -1), (1, 1, -1), (1, 1, 1)]), LARGE, (1, 1, 0))
    for rule in (1, 2):
        calls("the same plate", PLATE, PLATE, rule=rule, distance=0, intersects=True, closest_point=(0, 0, 0))
        above = face([(0, 0, 2), (4, 0, 2), (0, 4, 2)])
        calls("one above the other", PLATE, above, rule=rule, distance=2, intersects=False, closest_point=(0, 0, 0))


def nothing_to_cross():
    """Where rule 2 answers as rule 1 does."""
    tiny = 2e-86
    for rule in (1, 2):
        flat = face([(0, 0, 0), (2, 0, 0), (4, 0, 0)])
        calls("a plate without area", ROD, flat, rule=rule, distance=1, shortest_line=((1, 1, 0), (1, 0, 0)))
        # n is (0, 0, 1e-170), and its square 0, though the ends stand on either side
        small = face([(0, 0, 0), (1e-85, 0, 0), (0, 1e-85, 0)])
        calls(
            "n squared is 0", line((tiny, tiny, -1), (tiny, tiny, 1)), small, rule=rule,
            distance=math.sqrt(tiny * tiny + tiny * tiny), intersects=False,
        )
        calls("a plate with NaN", ROD, face([(NAN, 0, 0), (4, 0, 0), (0, 4, 0)]), rule=rule, distance=NAN, intersects=False)
        calls("NaN taken first stays", collection(point(NAN, 0, 0), ROD), PLATE, rule=rule, distance=NAN, intersects=False)
        endless = line((1, 1, -1), (1, 1, INF))
        calls("an infinite end", endless, PLATE, rule=rule, distance=1, intersects=False, closest_point=(1, 1, -1))
        calls(
            "an end whose side overflows", line((1, 1, -1.7e308), (1, 1, 1)), PLATE, rule=rule, distance=1, intersects=False,
            shortest_line=((1, 1, 1), (1, 1, 0)),
        )
        calls("points", ORIGIN, FAR, rule=rule, distance=13, shortest_line=((0, 0, 0), (3, 4, 12)))
        calls("a one-point line", line((1, 2, 3)), PLATE, rule=rule, distance=None, intersects=False, closest_point=None)
    # the same rod the other way: the parameter is 16 / infinity
    touch("a side that overflows", line((1, 1, 1), (1, 1, -1.7e308)), PLATE, (1, 1, 1))


def numbers_that_are_no_rule():
    below_zero = [(d, refused(1, 0)) for d in (-LEAST, -INF)]
    for rule in NO_RULES:
        refusals_by(rule, "17", ROD, PLATE, 17, 0)
        calls("1 before 17", ROD, PLATE, rule=rule, dwithin=below_zero + [(NAN, refused(17, 0)), (-0.0, refused(17, 0))])
        calls("1 before 17, whatever the blobs", NONE, raw("4750"), rule=rule, dwithin=below_zero)
        refusals_by(rule, "17 before 15 and 16", ROD, PLATE, 17, 0, more=(-1, -1, -1, -1, -1))
        refusals_by(rule, "17 before 15 and 16, nothing lent", ROD, PLATE, 17, 0, more=(-99, -99, -99, -99, -99))
    for shape, number in FAULTS + [(shape, 13) for shape in FLAT]:
        for side in (1, 2):
            a, b = (shape, PLATE) if side == 1 else (PLATE, shape)
            calls("17 before a fault", a, b, rule=3, distance=refused(17, 0), shortest_line=refused(17, 0))
            r = refused(number, side)
            calls("a fault by rule 2", a, b, rule=2, distance=r, dwithin=[(1.0, r), (-1.0, refused(1, 0))])


def lent_by_rule_2():
    touch("more lent than needed", ROD, PLATE, (1, 1, 0), more=(5, 3, 2, 1, 9))
    for place in range(4):
        short = tuple(-1 if i == place else 2 for i in range(5))
        refusals_by(2, "one too few lent", ROD, PLATE, 15, 1 + place // 2, more=short)
    for operation in ("closest_point", "shortest_line"):
        calls("16", ROD, PLATE, rule=2, more=(0, 0, 0, 0, -1), **{operation: refused(16, 0)})
        calls("16 where the answer is none", line((1, 2, 3)), PLATE, rule=2, more=(0, 0, 0, 0, -1), **{operation: refused(16, 0)})


def all_calls():
    rods_through_plates()
    plates_through_plates()
    nothing_to_cross()
    numbers_that_are_no_rule()
    lent_by_rule_2()
