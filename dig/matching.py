"""The nearest of many: each feature of one list against all of another, measured by the library, with progress."""
import sys
import time
from collections import namedtuple

import viskorrel
from dig import tapes
from dig.measure import told
from dig.problems import Problems

WAIT = 0.3      # seconds between signs of progress on a terminal
TOLD = 5.0      # and elsewhere

# how least distances are measured: by which pair rule, and whether boxes may pass pairs over, and jobs match dents, which changes no list
Measuring = namedtuple("Measuring", "rule box_test jobs", defaults=[1, True, True])


class Progress:
    """How many of the pairs are done, and the time left; nothing is said of what is done at once."""

    def __init__(self, rows, columns, noun):
        self.whole, self.columns, self.noun, self.start = rows * columns, columns, noun, time.monotonic()
        self.terminal, self.shown = sys.stderr.isatty(), time.monotonic()

    def at(self, rows):
        now, done = time.monotonic(), rows * self.columns
        if now - self.shown < (WAIT if self.terminal else TOLD) or done >= self.whole:
            return
        self.shown = now
        left = (now - self.start) * (self.whole - done) / done
        line = f"{done:,} of {self.whole:,} {self.noun}, about {left:.0f} s left"
        print(f"\r\033[K{line}" if self.terminal else line, end="" if self.terminal else "\n", file=sys.stderr, flush=True)

    def end(self):
        if self.terminal and self.shown > self.start + WAIT / 2:
            print("\r\033[K", end="", file=sys.stderr, flush=True)


def nearest(ones, many, noun, measuring):
    """For each of `ones` the place in `many` of the nearest, the first of several as near, and the distance; (None, None) if `many` is empty."""
    if not many:
        return [(None, None)] * len(ones)
    found = searched(ones, many, noun, measuring)
    if found.faults:
        raise faulty(ones, many, found.faults)
    return list(zip(found.places, found.distances))


def searched(ones, many, noun, measuring):
    progress = Progress(len(ones), len(many), noun)
    try:
        return viskorrel.nearest([one.blob for one in ones], [other.blob for other in many],
                                 boxes=measuring.box_test, progress=progress.at, rule=measuring.rule)
    finally:
        progress.end()


def faulty(ones, many, faults):
    return Problems(*[f"{pair(ones[at], many[place])}: {words(fault)}" for at, (place, fault) in sorted(faults.items())])


def nearest_by_jobs(ones, many, noun, measuring, made):
    """The same as `nearest`, by jobs (dig/tapes.py) where there is a hit: the nearest of all is then the nearest of the hits. The others are
    searched among all. A pair without a finite distance is no hit and no fault of a job; it is searched for where boxes do not rule it out."""
    if not many:
        return [(None, None)] * len(ones)
    best = tapes.nearest(made)
    found = [best.get(at, (None, None))[::-1] for at in range(len(ones))]
    everywhere = [at for at, one in enumerate(ones) if at not in best or tapes.box_of(one) is None]
    unboxed = [place for place, other in enumerate(many) if tapes.box_of(other) is None]
    faults = {}
    for these, places in ((everywhere, range(len(many))), (sorted(set(range(len(ones))) - set(everywhere)), unboxed)):
        if not these or not places:
            continue
        answers = searched([ones[at] for at in these], [many[place] for place in places], noun, measuring)
        for element, (place, fault) in answers.faults.items():
            faults[these[element]] = places[place], fault
        if places is not unboxed:
            for at, place, distance in zip(these, answers.places, answers.distances):
                found[at] = place, distance
    if faults:
        raise faulty(ones, many, faults)
    return found


def pair(one, other):
    return f"{one.table}, feature {one.id} with {other.table}, feature {other.id}"


def words(fault):
    if isinstance(fault, viskorrel.Refusal):
        return told(fault)
    return "there is no distance" if fault is None else f"the distance is {fault}"
