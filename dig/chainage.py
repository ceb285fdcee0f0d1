"""Chainage: the way along the centreline in plan, from its start to the place nearest to something."""
import itertools
import math
from collections import namedtuple

import viskorrel
from dig.geopackage import LINE
from dig.measure import line, point, shortest

JOINED = 0.01  # metres between the end of a run and the start of the next that follows it


class Segment(namedtuple("Segment", "id a b start end")):
    """A piece of the centreline that is measured by itself; `start` and `end` are the chainages of its ends."""
    __slots__ = ()
    table = "centreline"

    @property
    def blob(self):
        return line([self.a, self.b])

    def chainage(self, blob, rule):
        """Of the place that is nearest to a blob in 3D, by a rule."""
        return self.foot(shortest(blob, self.blob, rule)[1], 3)[1]

    def foot(self, place, axes):
        """The distance of a place in so many axes, and the chainage there."""
        step = [q - p for p, q in zip(self.a[:axes], self.b)]
        long = sum(s * s for s in step)
        t = sum((p - q) * s for p, q, s in zip(place, self.a, step)) / long if long > 0 else 0.0
        t = min(1.0, max(0.0, t))
        off = math.sqrt(sum((q + t * s - p) ** 2 for p, q, s in zip(place, self.a, step)))
        return off, self.start + t * (self.end - self.start)


class Chainage:
    def __init__(self, pipe):
        """`pipe`: the features of the centreline; without a line in them there is no chainage."""
        runs = [run for feature in pipe for kind, run in feature.runs if kind == LINE and len(run) > 1]
        runs, self.gaps = in_order(runs)
        self.segments, way = [], 0.0
        for run in runs:
            for a, b in zip(run, run[1:]):
                end = way + math.hypot(b[0] - a[0], b[1] - a[1])
                self.segments.append(Segment(len(self.segments), a, b, way, end))
                way = end
        self._in_plan = {}

    def there(self):
        return bool(self.segments)

    def in_plan(self, places):
        """The chainages of the feet of places in plan, by place; all at once, since there are many where a profile is drawn."""
        new = list({place for place in places if place not in self._in_plan})
        flat = [line([(*segment.a[:2], 0.0), (*segment.b[:2], 0.0)]) for segment in self.segments]
        found = viskorrel.nearest([point((*place[:2], 0.0)) for place in new], flat)
        for place, at in zip(new, found.places):
            self._in_plan[place] = self.segments[at].foot(place, 2)[1]
        return self._in_plan


def in_order(runs):
    """Runs one behind the other where each ends at the start of the next, whatever their order in the file; and the gaps that stay."""
    starts = {}
    for at, run in enumerate(runs):
        starts.setdefault(cell(run[0]), []).append(at)
    following = {}
    for at, run in enumerate(runs):
        found = [other for there in around(cell(run[-1])) for other in starts.get(there, [])
                 if other != at and math.dist(run[-1], runs[other][0]) <= JOINED]
        if len(found) == 1:
            following[at] = found[0]
    order = sorted(set(range(len(runs))) - set(following.values()))
    if len(order) == 1:
        while order[-1] in following and len(order) <= len(runs):
            order.append(following[order[-1]])
        if len(order) == len(runs):
            return [runs[at] for at in order], []
    gaps = [math.dist(a[-1], b[0]) for a, b in zip(runs, runs[1:])]
    return runs, [gap for gap in gaps if gap > JOINED]


def cell(place):
    return tuple(math.floor(number / JOINED) for number in place)


def around(place):
    return itertools.product(*((number - 1, number, number + 1) for number in place))
