"""What the list asks of the proved library, by the package viskorrel."""
import struct

import viskorrel

LINE_AT = 17  # bytes before the coordinates of a line that the library writes


def longest(a, b):
    """The longest line: its length and its two ends; None: there is none."""
    line = viskorrel.longest_line(a, b)
    return line and (viskorrel.max_distance(a, b), *ends(line))


def shortest(a, b, rule):
    """The two ends of the shortest line by a rule; None: there is none."""
    line = viskorrel.shortest_line(a, b, rule)
    return line and ends(line)


def ends(line):
    numbers = struct.unpack_from("<6d", line, LINE_AT)
    return numbers[:3], numbers[3:]


def told(refusal):
    """A refusal in words, with what to do about it."""
    return f"refusal {refusal.number}: {refusal.words}" + (f"; {refusal.advice}" if refusal.advice else "")


def multipoint(vertices):
    """Vertices as one WKB MultiPoint Z, little-endian."""
    return struct.pack("<BII", 1, 1004, len(vertices)) + b"".join(map(point, vertices))


def point(vertex):
    """A vertex as one WKB Point Z, little-endian."""
    return struct.pack("<BI3d", 1, 1001, *vertex)


def line(vertices):
    """Vertices as one WKB LineString Z, little-endian."""
    return struct.pack("<BII", 1, 1002, len(vertices)) + b"".join(struct.pack("<3d", *vertex) for vertex in vertices)
