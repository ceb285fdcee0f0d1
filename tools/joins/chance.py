"""Blobs and calls drawn by chance. A blob comes with the runs that it was written from."""
import random
from collections import namedtuple

import model
from blobs import FLAG_M, FLAG_Z, collection, counted, geometry, gp, nested, ordinates, run

# Who is to read it beside us. GDAL: a collection holds what its kind says, a triangle is one closed ring of four, a type has thousands or
# flags and not both, no SRID stands inside, and no collection 32 levels deep. GEOS: lines and rings are valid, all have Z, no surfaces.
# ANY: whatever the walk reads
GDAL, GEOS, ANY = "GDAL", "GEOS", "any"
SIMPLE, LISTS = [1, 2, 3, 17], [4, 5, 6, 7, 15, 16]
SURFACES = {15, 16, 17}
MEMBERS = {4: [1], 5: [2], 6: [3], 15: [3], 16: [17]}
SRIDS = [None, None, 0, 4326, 2**32 - 1]  # of members

Drawn = namedtuple("Drawn", "blob runs")  # a run is its kind and its coordinates (x, y, z, m); one without a coordinate is left out


def number(draw):
    """Finite; seldom so large that its square is not."""
    return draw.choice([
        draw.uniform(-9, 9), float(draw.randint(-3, 3)), round(draw.uniform(4e5, 6e5), 3),
        draw.uniform(-1, 1) * 10.0 ** draw.randint(-320, 160), -0.0])


class Geometries:
    """Draws geometries for a reader."""

    def __init__(self, draw, reader):
        self.draw, self.reader = draw, reader

    def code(self, kind, z, m):
        """A type in one of its spellings."""
        draw, iso, flags = self.draw, kind + 1000 * (z + 2 * m), kind | FLAG_Z * z | FLAG_M * m
        if self.reader != ANY:
            return draw.choice([iso, flags])
        unheard = draw.choice([0, FLAG_Z, FLAG_M]) if iso > kind else 0  # thousands of 1, 2 and 3 decide alone
        silent = 1000 * draw.choice([0, 4, 64])  # other thousands say nothing
        return draw.choice([iso | unheard, flags + silent]) | draw.choice([0, 0, 0x10000, 0x1FFF0000])

    def coordinates(self, count, z, m, closed=False):
        """As they are written, and as they are read."""
        written = [tuple(number(self.draw) for _ in range(2 + z + m)) for _ in range(count)]
        if closed:
            written[-1:] = written[:1]
        return written, [(*c[:2], c[2] if z else 0.0, c[-1] if m else 0.0) for c in written]

    def ring_lengths(self, kind):
        if self.reader == GDAL and kind == 17:
            return [4]
        least, most = {GDAL: (1, 5), GEOS: (4, 5), ANY: (0, 5)}[self.reader]
        return [self.draw.randint(least, most) for _ in range(self.draw.choice([0, 1, 1, 1, 2, 3]))]

    def kinds(self, levels):
        return [kind for kind in SIMPLE + LISTS * (levels > 0) if self.reader != GEOS or kind not in SURFACES]

    def member(self, levels, kinds):
        z, m = self.reader == GEOS or self.draw.random() < 0.8, self.draw.random() < 0.3
        return self.one(levels, kinds, z, m, self.draw.choice(SRIDS) if self.reader != GDAL else None)

    def one(self, levels, kinds, z, m, srid):
        """A geometry with at most so many levels below it, and its runs."""
        kind, order = self.draw.choice(kinds), self.draw.choice("<>")
        content, runs = self.content(kind, order, levels, z, m)
        return geometry(self.code(kind, z, m), content, order, srid), [(run_kind, read) for run_kind, read in runs if read]

    def content(self, kind, order, levels, z, m):
        if kind == 1:
            written, read = self.coordinates(1, z, m)
            return ordinates(order, written), [(kind, read)]
        if kind == 2:
            written, read = self.coordinates(self.draw.choice([0, 2, 3, 5] if self.reader == GEOS else [0, 1, 2, 3, 5]), z, m)
            return run(order, written), [(kind, read)]
        if kind in (3, 17):
            rings = [self.coordinates(length, z, m, closed=self.reader != ANY) for length in self.ring_lengths(kind)]
            return counted(order, [run(order, written) for written, _ in rings]), [(kind, read) for _, read in rings]
        kinds = self.kinds(levels - 1) if self.reader == ANY or kind == 7 else MEMBERS[kind]
        members = [self.member(levels - 1, kinds) for _ in range(self.draw.choice([0, 1, 1, 2, 3]))]
        return counted(order, [member for member, _ in members]), [each for _, runs in members for each in runs]


def drawn(draw, srid, reader=ANY):
    """A blob of that SRID, bare or behind a GP header; with an envelope, with more bytes behind it, or without."""
    bare = draw.random() < 0.4 and not (srid and reader == GDAL)
    own = None if reader == GDAL else (srid or None) if bare else draw.choice(SRIDS)  # behind a GP header it says nothing
    geometries, levels = Geometries(draw, reader), draw.choice([0, 0, 1, 1, 2, 3])
    below = draw.choice([0] * 7 + [1, 25, 29 if reader == ANY else 27])  # now and then far below the top
    inner, runs = geometries.one(levels, geometries.kinds(levels), True, draw.random() < 0.3, None if below else own)
    if below:
        inner = collection(nested(inner, below - 1, draw.choice("<>")), order=draw.choice("<>"), srid=own)
    if not bare:
        inner = gp(inner, srid, draw.choice("<>"), draw.randrange(5), draw.choice([0, 0x10]))
    return Drawn(inner + draw.randbytes(draw.choice([0, 0, 1, 4, 9])), runs)


def calls(count, seed):
    """Two blobs and the length of the output. Most are joined; others have SRIDs that differ, damaged bytes, or too short an output."""
    draw = random.Random(seed)
    for _ in range(count):
        srid = draw.choice([0, 4326, 25832, 2**32 - 1])
        a, b = (drawn(draw, srid if draw.random() < 0.9 else draw.choice([0, 1])).blob for _ in range(2))
        if draw.random() < 0.2:
            a, b = (harmed(draw, side) if draw.random() < 0.6 else side for side in (a, b))
        size = model.join(a, b, bytes(len(a) + len(b) + 17))[0].size
        lent = size + draw.choice([0, 0, 1, 17]) if draw.random() < 0.8 else draw.randrange(size + 20)
        yield a, b, lent


def harmed(draw, blob):
    if draw.random() < 0.3:
        return blob[:draw.randrange(len(blob))]
    place = draw.randrange(min(len(blob), 40))
    return blob[:place] + draw.randbytes(1) + blob[place + 1:]
