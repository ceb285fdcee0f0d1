"""Square roots of binary64 numbers and the digits needed (document 02, 2/13), by whole numbers alone; and numbers to try them on.

A number is its bit pattern. A positive finite one is n * 2^e, n whole and e even: its root is that of n times 2^(e/2). Since n has at most
54 binary digits, a whole root of it has at most 27.
"""
import math
import random

DIGITS = 53  # of a significand
HIDDEN = 1 << 52  # its first 1, which a pattern leaves out
INFINITY = 0x7FF << 52
NAN = 0x7FF8 << 48  # stands for every NaN
SIGN = 1 << 63
LEAST = -1074  # the exponent of the least positive number, 2^-1074


def even(pattern):
    """A positive finite number's n and e."""
    field, n = divmod(pattern, HIDDEN)
    e = LEAST + max(field, 1) - 1
    if field:
        n += HIDDEN
    return (2 * n, e - 1) if e % 2 else (n, e)


def nearest(n):
    """The root of n, doubled until it has 53 binary digits and rounded to a whole number; and how often it was doubled. It is never half way
    between two whole numbers, since the square of that is not whole."""
    doubled = DIGITS - math.isqrt(n).bit_length()
    halves = math.isqrt(4 * n << 2 * doubled)
    return (halves + 1) // 2, doubled


def length(n):
    """How many binary digits there are from the first 1 to the last."""
    return (n // (n & -n)).bit_length()


def expected(pattern):
    """The pattern of the root, and the digits needed."""
    if pattern in (0, SIGN, INFINITY):
        return pattern, 0
    if pattern > INFINITY:  # a NaN, or below 0
        return NAN, 0
    n, e = even(pattern)
    whole = math.isqrt(n)
    root, doubled = nearest(n)
    field = e // 2 - doubled - LEAST  # one less than its own, to which the first 1 adds
    return field * HIDDEN + root, length(whole) if whole * whole == n else DIGITS


def digits_one_by_one(pattern):
    """The digits that a positive finite number needs, in the request's own words: of 1, 2, 3 and so on leading digits of the root the fewest
    whose square is the number."""
    n, _ = even(pattern)
    root, doubled = nearest(n)
    for count in range(1, DIGITS):
        cut = 1 << DIGITS - count
        if (root // cut * cut) ** 2 == n << 2 * doubled:
            return count
    return DIGITS


def pattern_of(n, e):
    """The pattern of n * 2^e, or None where it is no binary64 number; n is above 0."""
    shift = max(n.bit_length() - DIGITS, LEAST - e)
    significand = n >> shift if shift > 0 else n << -shift
    field = e + shift - LEAST  # one less than its own, to which the first 1 adds, if it is not subnormal
    pattern = field * HIDDEN + significand
    is_exact = shift <= 0 or significand << shift == n
    return pattern if is_exact and pattern < INFINITY else None


def square(draw, odd=0):
    """A square of 1 to 27 digits' root, times a power of two that is even, or odd where that is asked."""
    while True:
        root = draw.getrandbits(draw.randint(1, 27)) | 1
        pattern = pattern_of(root * root, 2 * draw.randint(LEAST // 2, 511) + odd)
        if pattern is not None:
            return pattern


def near_power_of_two(draw):
    return max(draw.randint(1, 0x7FE) * HIDDEN + draw.randint(-4, 4), 1)


KINDS = [
    lambda draw: draw.getrandbits(64),
    lambda draw: draw.randrange(1, INFINITY),
    lambda draw: draw.getrandbits(draw.randint(1, 52)) or 1,  # subnormal
    near_power_of_two,
    lambda draw: pattern_of(draw.getrandbits(draw.randint(1, DIGITS)) or 1, 0),  # whole
    square,
    lambda draw: max(square(draw) + draw.choice([-2, -1, 1, 2]), 1),
    lambda draw: square(draw, odd=1),
]


def drawn(count, seed):
    """So many patterns, of each kind about as many."""
    draw = random.Random(seed)
    return [kind(draw) for kind in draw.choices(KINDS, k=count)]
