"""What the calls of fixtures.py and rules.py share: how a call is noted, and shapes that both use."""
import math

from records import BY_RULE, NOTHING, YES, Call, Expected, blob, number, refused
from shapes import *

CALLS = []
NONE = Shape(b"")
NAN, INF, LEAST = math.nan, math.inf, 5e-324
ROOM = 1 << 18  # bytes of a file that the program can hold
TAKES_NUMBER = ("dwithin", "dfully_within", "line_interpolate_point", "patch")


def below(x):
    return math.nextafter(x, -INF)


def above(x):
    return math.nextafter(x, INF)


def expected(answer, srid):
    """None, True or False, a number, one coordinate (a point), two (a line), or what is an Expected already."""
    if isinstance(answer, Expected):
        return answer
    if answer is None or answer is False:
        return NOTHING
    if answer is True:
        return YES
    if isinstance(answer, tuple):
        return blob(srid, answer if isinstance(answer[0], tuple) else (answer,))
    return number(answer)


def calls(name, a, b, *, srid=0, more=(0, 0, 0, 0, 0), rule=1, **answers):
    """A call for each operation named; of one that takes a number, for each pair of a number and an answer."""
    for operation, answer in answers.items():
        pairs = answer if operation in TAKES_NUMBER else [(0.0, answer)]
        for argument, one in pairs:
            CALLS.append(Call(name, operation, a, b, argument, expected(one, srid), more, rule))


def refusals(name, a, b, number, side, **options):
    """The same refusal from every operation on two blobs."""
    r = refused(number, side)
    calls(
        name, a, b, distance=r, max_distance=r, dwithin=[(1.0, r)], dfully_within=[(1.0, r)], intersects=r,
        closest_point=r, shortest_line=r, longest_line=r, **options,
    )


def refusals_by(rule, name, a, b, number, side, **options):
    """The same refusal from every operation that takes a rule."""
    r = refused(number, side)
    answers = {operation: [(1.0, r)] if operation in TAKES_NUMBER else r for operation in BY_RULE}
    calls(name, a, b, rule=rule, **answers, **options)


def touch(name, a, b, at, **options):
    """By rule 2 the two touch there."""
    calls(
        name, a, b, rule=2, distance=0, intersects=True, dwithin=[(0.0, True)], closest_point=at,
        shortest_line=(at, at), **options,
    )


def nothings(name, a, b):
    """None and no from every operation on two blobs, however far."""
    calls(
        name, a, b, distance=None, max_distance=None, dwithin=[(INF, False)], dfully_within=[(INF, False)],
        intersects=False, closest_point=None, shortest_line=None, longest_line=None,
    )


ORIGIN = point(0, 0, 0)
FAR = point(3, 4, 12)
XY = point_of_type(1, (1, 2), (1, 2, 0))
TRIANGLE = [(0, 0, 0), (4, 0, 0), (0, 4, 0)]
ROOT_5, ROOT_11, ROOT_14 = math.sqrt(5), math.sqrt(11), math.sqrt(14)


# a blob, and the number with which it is refused as either side
FAULTS = [
    (raw("4750"), 3), (raw("47500001E61000"), 3), (gp(ORIGIN, version=1), 4), (gp(ORIGIN, version=1, flags=0xFF), 4),
    (gp(ORIGIN, flags=0x21), 5), (gp(ORIGIN, flags=0xFF), 5), (gp(ORIGIN, flags=0x41), 6), (gp(ORIGIN, flags=0xDF), 6),
    (gp(ORIGIN, flags=0x0B), 7), (gp(ORIGIN, flags=0x0D), 7), (gp(ORIGIN, flags=0x0F), 7),
    (raw("4750000300000000" + 31 * "00"), 8), (raw("4750000300000000" + 32 * "00"), 9), (gp(NONE), 9), (NONE, 9),
    (raw("47"), 9), (raw("02"), 9), (raw("01E90300"), 9), (raw("02E9030000"), 10), (cut(FAR, 1), 9),
    (cut(line((0, 0, 0), (1, 0, 0)), 24), 9), (cut(face(TRIANGLE), 1), 9), (cut(with_srid(ORIGIN, 1), 25), 9),
    (raw("01EA030000FFFFFFFF"), 9), (raw("01F0030000"), 11), (raw("01E8030000"), 11), (raw("01FA030000"), 11),
    (raw("01F0030020"), 9), (collection(raw("02E9030000")), 10), (collection(raw("01F0030000")), 11),
    (cut(collection(FAR, FAR), 29), 9), (nested(33, FAR), 12),
]
# fails the top Z test
FLAT = [
    XY, point_of_type(2001, (1, 2, 7), (1, 2, 0, 7)), point_of_type(0x40000001, (1, 2, 7), (1, 2, 0, 7)),
    point_of_type(4001, (1, 2), (1, 2, 0)), Shape(b"\x01" + u32(7) + u32(1) + FAR.data, FAR.runs),
]
