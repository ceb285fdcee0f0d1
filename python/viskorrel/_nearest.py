"""The nearest of many: each geometry of one sequence against all of another, in C, on all processors."""
import ctypes
import math
import os
from array import array

from ._geometry import Blobs
from ._library import ANSWERED, REFUSED, NearestArrays, library
from ._refusal import Refusal
from ._rule import rule_number
from .batch import check, listed

PAIRS = 1 << 19    # in one call of C, if they are all measured: between calls progress is told and Ctrl-C is heard
ALONE = {True: 1 << 21, False: 1 << 15}  # fewer pairs, with boxes and without, are not worth a thread


class Nearest:
    """The answers, element by element of `a`.

    places     the place in `b` of the nearest, the first of several as near
    distances  the distance to it
    faults     by element: the place in `b` whose pair has no finite distance, and why: a Refusal, None (nothing to measure) or the number
    measured   how many pairs were measured; the others were passed over by their boxes
    """

    def __init__(self, count):
        self._outcomes, self._numbers, self._sides = (array("B", bytes(count)) for _ in range(3))
        self.distances, self.places, self._measured = array("d", bytes(8 * count)), array("Q", bytes(8 * count)), array("Q", bytes(8 * count))
        self.faults, self.measured = {}, 0

    def addresses(self):
        parts = (self._outcomes, self._numbers, self._sides, self.distances, self.places, self._measured)
        return NearestArrays(*(part.buffer_info()[0] for part in parts))

    def finish(self, a, b):
        self.measured = sum(self._measured)
        for k, outcome in enumerate(self._outcomes if len(b) else ()):
            if outcome == REFUSED:
                number, side = self._numbers[k], self._sides[k]
                blob = (a[k], b[self.places[k]])[side - 1] if side else None
                self.faults[k] = self.places[k], Refusal(number, side, blob, element=k)
            elif outcome != ANSWERED:
                self.faults[k] = self.places[k], None
            elif not math.isfinite(self.distances[k]):
                self.faults[k] = self.places[k], self.distances[k]


def nearest(a, b, boxes=True, threads=None, progress=None, rule=1):
    """For each geometry of `a` the nearest of `b` by `distance` with this rule, as a Nearest.

    boxes=False measures every pair; the answers are the same. `progress` is called with the number of elements that are done.
    """
    a, b = (part if isinstance(part, Blobs) else Blobs(part) for part in (a, b))
    answers, rule = Nearest(len(a)), rule_number(rule)
    if len(a) and len(b):
        run(a, b, rule, answers, bool(boxes), threads or processors(), progress or (lambda done: None))
    answers.finish(a, b)
    return answers


def processors():
    try:
        return len(os.sched_getaffinity(0))
    except AttributeError:
        return os.cpu_count() or 1


def run(a, b, rule, answers, boxes, threads, progress):
    lists, arrays = (listed(a), listed(b)), answers.addresses()
    rooms = [box_list(part) for part in lists] if boxes else [None, None]
    given = [*map(ctypes.addressof, lists), rule, *(room.buffer_info()[0] if room else None for room in rooms)]
    step = max(1, min(PAIRS // len(b), -(-len(a) // threads)))

    def part(start):
        end = min(start + step, len(a))
        check(library().viskorrel_nearest(*given, start, end, ctypes.addressof(arrays)))
        return end - start

    starts, done = range(0, len(a), step), 0
    if threads == 1 or len(a) * len(b) < ALONE[boxes]:
        for start in starts:
            done += part(start)
            progress(done)
        return
    import concurrent.futures  # here, since a small job has no use for it
    with concurrent.futures.ThreadPoolExecutor(threads) as pool:
        parts = [pool.submit(part, start) for start in starts]
        try:
            for finished in concurrent.futures.as_completed(parts):
                done += finished.result()
                progress(done)
        except BaseException:
            pool.shutdown(cancel_futures=True)
            raise


def box_list(blobs):
    room = array("d", bytes(48 * blobs.count))
    check(library().viskorrel_boxes(ctypes.addressof(blobs), room.buffer_info()[0]))
    return room
