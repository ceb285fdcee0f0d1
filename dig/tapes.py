"""Dents matched against struck-off ones by jobs: which pairs stand on the tapes, the tapes, and the nearest of the hits."""
import bisect
from collections import namedtuple

import viskorrel
from dig.measure import told
from dig.problems import Problems

NUMBERS = 256           # that a tape can name
MOST = 1 << 20          # pairs on the tapes of a list
SLIM = 1 / 64           # of the whole: features that are not longer than that are found by their place
POINT, LINE = 1, 2
# shared/batch.c says why a pair whose boxes are farther apart than this is not within the tolerance, as its distance is computed
LARGEST, MARGIN, TINY = 1e30, 2.0 ** -40, 2.0 ** -400

Box = namedtuple("Box", "least greatest")


def box_of(feature):
    """None where boxes say nothing: of faces, and of what is not measurable or too large."""
    if any(kind not in (POINT, LINE) for kind, _ in feature.runs) or not feature.vertices:
        return None
    axes = list(zip(*(vertex for _, run in feature.runs for vertex in run)))
    if max(max(map(abs, axis)) for axis in axes) > LARGEST:
        return None
    return Box(tuple(map(min, axes)), tuple(map(max, axes)))


class Near:
    """Those of many features that may be within a tolerance of one: by boxes, and all that have none. Along the longest axis of all of them
    only those about as far are looked at, and the long ones."""

    def __init__(self, many, tolerance):
        boxes = [box_of(other) for other in many]
        boxed = [(place, box) for place, box in enumerate(boxes) if box is not None]
        self.count, self.tolerance = len(many), tolerance
        self.unboxed = [place for place, box in enumerate(boxes) if box is None]
        self.size = max((size_of(box) for _, box in boxed), default=0.0)
        spans = [max((box.greatest[axis] for _, box in boxed), default=0.0) - min((box.least[axis] for _, box in boxed), default=0.0)
                 for axis in range(3)]
        self.axis = axis = spans.index(max(spans))
        self.slim = SLIM * spans[axis]
        self.long = [(place, box) for place, box in boxed if box.greatest[axis] - box.least[axis] > self.slim]
        self.others = sorted(((place, box) for place, box in boxed if box.greatest[axis] - box.least[axis] <= self.slim),
                             key=lambda other: other[1].least[axis])
        self.least = [box.least[axis] for _, box in self.others]

    def places(self, one):
        box = box_of(one)
        if box is None:
            return list(range(self.count))
        reach = self.tolerance + MARGIN * self.tolerance + MARGIN * (self.size + size_of(box)) + TINY
        start = bisect.bisect_left(self.least, box.least[self.axis] - (reach + self.slim) * (1 + MARGIN))
        end = bisect.bisect_right(self.least, box.greatest[self.axis] + reach * (1 + MARGIN))
        near = [place for place, other in self.others[start:end] + self.long if not apart(box, other, reach)]
        return sorted(near + self.unboxed)


def size_of(box):
    return max(map(abs, box.least + box.greatest))


def apart(a, b, reach):
    """Whether two boxes are farther apart than that on some axis."""
    return any(max(b.least[axis] - a.greatest[axis], a.least[axis] - b.greatest[axis]) > reach for axis in range(3))


class Job:
    """A tape that names up to 256 features."""

    def __init__(self, tolerance):
        self.tape, self.numbers, self.named = viskorrel.Tape().tolerance(tolerance), {}, []

    def fits(self, things):
        return len(self.named) + sum(thing not in self.numbers for thing in things) <= NUMBERS

    def number(self, thing, feature):
        """The number of a feature, which is loaded where it is not yet."""
        if thing not in self.numbers:
            self.numbers[thing] = len(self.named)
            self.named.append(thing)
            self.tape.load(self.numbers[thing], feature.blob)
        return self.numbers[thing]

    def hits(self):
        """Place among the dents, distance, place among the struck-off ones."""
        try:
            found = viskorrel.job(self.tape)
        except viskorrel.Refusal as refused:  # of features that were read before, none is expected
            raise Problems(f"a job of the list: {told(refused)}") from None
        return [(self.named[hit.first][1], hit.distance, self.named[hit.second][1]) for hit in found]


def jobs(dents, struck, tolerance):
    """As many jobs as 256 numbers ask for, in the order of the dents; at least one. None: there are too many pairs to be written down."""
    near, made, pairs = Near(struck, tolerance), [Job(tolerance)], 0
    for at, dent in enumerate(dents):
        places = near.places(dent)
        pairs += len(places)
        if pairs > MOST:
            return None
        for start in range(0, len(places), NUMBERS - 1):
            part = places[start:start + NUMBERS - 1]
            if not made[-1].fits([("dent", at), *(("struck", place) for place in part)]):
                made.append(Job(tolerance))
            job = made[-1]
            first = job.number(("dent", at), dent)
            for place in part:
                job.tape.pair(first, job.number(("struck", place), struck[place]))
    for job in made:
        job.tape.end()
    return made


def nearest(made):
    """Of each dent that has a hit the distance of the nearest struck-off dent and its place, the first of several as near."""
    best = {}
    for job in made:
        for dent, distance, place in job.hits():
            best[dent] = min(best.get(dent, (distance, place)), (distance, place))
    return best
