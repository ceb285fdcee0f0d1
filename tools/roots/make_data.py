"""Writes the data of the program `roots` and the output that is expected of it.

A record is three little-endian u64: the pattern of a number, the pattern of its root, the digits needed. All are by whole numbers.
"""
import pathlib
import struct
import sys

sys.dont_write_bytecode = True

from whole_roots import HIDDEN, INFINITY, LEAST, NAN, SIGN, drawn, expected, pattern_of

CRATE = pathlib.Path(__file__).resolve().parent.parent.parent / "crates" / "roots"
LARGEST_ROOT = 94906265  # the greatest whole number whose square, if it is odd, has at most 53 digits
NAMED = [pattern_of(n, e) for n, e in [(25, 0), (4, 0), (1, 0), (2, 0), (1, LEAST), (1, LEAST + 1), (LARGEST_ROOT**2, 0), (HIDDEN + 1, 0)]]
NO_POSITIVE_FINITE = [0, SIGN, INFINITY, SIGN + INFINITY, NAN, SIGN + NAN, INFINITY + 1, SIGN + pattern_of(4, 0), SIGN + 1, SIGN + INFINITY - 1]


def neighbours(patterns):
    """These, and the number below and above each."""
    return [pattern + by for pattern in patterns for by in (-1, 0, 1) if 0 <= pattern + by]


def boundaries():
    """Powers of two over the whole range, first of all those between subnormal and normal numbers, the least and the greatest."""
    powers = [pattern_of(1, e) for e in [*range(LEAST, -1015), *range(-1014, 1024, 13), *range(1018, 1024)]]
    return neighbours([*powers, INFINITY - 1])


def squares():
    """Those of 1 to 1023, and of roots of 10 to 27 digits at the ends of the range and beside it, as large and as small as they can be."""
    small = [pattern_of(root * root, 0) for root in range(1, 1024)]
    long = [root for k in range(10, 27) for root in (2**k - 1, 2**k + 1)] + [LARGEST_ROOT - 2, LARGEST_ROOT]
    scaled = [pattern_of(root * root, e) for root in long for e in (LEAST, -2, 0, 1, 916)]
    return small + neighbours(pattern for pattern in scaled if pattern is not None)


def main():
    patterns = [*NAMED, *NO_POSITIVE_FINITE, *boundaries(), *squares(), *drawn(2000, 1)]
    (CRATE / "data").mkdir(parents=True, exist_ok=True)
    with open(CRATE / "data" / "numbers", "wb") as out:
        for pattern in patterns:
            out.write(struct.pack("<3Q", pattern, *expected(pattern)))
    with open(CRATE / "stdout", "w", encoding="ascii", newline="\n") as out:
        out.write(f"{len(patterns)} records, 0 differing\n")


main()
