"""The square root of a number, as distances take it."""
from collections import namedtuple

from ._library import library


class RootAndDigits(namedtuple("RootAndDigits", "root digits")):
    """A square root, and how many of its binary digits are needed."""
    __slots__ = ()


def root_digits(s):
    """The square root of s, rounded once to the nearest, and the digits needed, as a RootAndDigits.

    These are, for positive finite s, the fewest leading binary digits of the root, from its first 1, whose square is s exactly; 53 if there
    are none (an exact root needs at most 27), and 0 for any other s. No number is refused: the root of one below 0 is NaN.
    """
    found = library().viskorrel_root_digits(s)
    return RootAndDigits(found.root, found.digits)
