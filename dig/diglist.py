"""The dig list: each dent with its nearest struck-off dent; each dent group with the longest line to its weld."""
import math
import re

from dig import matching, measure, tapes
from dig.measure import multipoint, told
from dig.problems import Problems
from viskorrel import Refusal, dwithin

STRUCK, NEW = "struck off", "NEW"
FAR_OUT = 3       # times the usual width
OFF_PIPE = 25.0   # metres from the centreline
NAMED = 6         # of many, so many are named


class Dent:
    def __init__(self, feature, nearest, distance, state):
        self.feature, self.nearest, self.distance, self.state = feature, nearest, distance, state
        self.chainage = self.off = None  # of the place of the centreline that is nearest, and how far that is
        self.same_as = None              # the dent that this row repeats: the row is listed and not counted
        self.warnings = []


class Counted:
    """What has dents: rows that repeat a dent are not counted."""

    @property
    def count(self):
        return sum(dent.same_as is None for dent in self.dents)

    @property
    def new(self):
        return sum(dent.same_as is None and dent.state == NEW for dent in self.dents)


class Group(Counted):
    def __init__(self, name):
        self.name, self.dents, self.welds, self.chainage, self.warnings = name, [], [], None, []
        self.width = self.start = self.end = None  # the longest line, from a dent to the weld: of a group that has a weld
        self.passage = None                        # of the fix nearest to that line: of a dig, where there are fixes


class DigList(Counted):
    """In the order of the list. A dig is a group with a new dent; the others are quiet. `chainage`: whether there is a centreline;
    `passages`: whether digs have one (dig/fixes.py). `tapes`: those that the dents were matched by."""

    def __init__(self, groups, chainage):
        self.dents = [dent for group in groups for dent in group.dents]
        self.digs, self.quiet = [group for group in groups if group.new], [group for group in groups if not group.new]
        self.chainage, self.passages, self.warnings, self.stamp, self.tapes = chainage, False, [], None, []


def make(features, tolerance, chainage, measuring):
    """`features`: lists by role. `chainage`: of the centreline."""
    by_jobs = measuring.jobs and measuring.rule == 1  # a job goes by rule 1
    jobs = tapes.jobs(features["dents"], features["struck"], tolerance) if by_jobs else None
    dents = matched(features["dents"], features["struck"], tolerance, measuring, jobs)
    repeated(dents)
    if chainage.there():
        along(dents, chainage, measuring)
    groups = by_group(dents, features["welds"])
    widths(groups)
    groups.sort(key=place_in_list)
    listed = DigList(groups, chainage.there())
    listed.tapes = [bytes(job.tape) for job in jobs or []]
    listed.warnings = warnings(listed, groups, features, chainage)
    return listed


def matched(dents, struck, tolerance, measuring, jobs):
    """Each dent's nearest struck-off dent; of several as near, the first by feature id. With jobs or without, the list is the same."""
    listed = []
    if jobs is None:
        found = matching.nearest(dents, struck, "pairs", measuring)
    else:
        found = matching.nearest_by_jobs(dents, struck, "pairs", measuring, jobs)
    for dent, (at, least) in zip(dents, found):
        if at is None:
            listed.append(Dent(dent, None, None, NEW))
        else:
            state = STRUCK if dwithin(dent.blob, struck[at].blob, tolerance, measuring.rule) else NEW
            listed.append(Dent(dent, struck[at], least, state))
    return listed


def repeated(dents):
    """A row of the same geometry and group as an earlier one is the same dent."""
    seen = {}
    for dent in dents:
        first = seen.setdefault((dent.feature.group, dent.feature.shape), dent.feature)
        if first is not dent.feature:
            dent.same_as = first


def along(dents, chainage, measuring):
    """The place of the centreline nearest to each dent."""
    found = matching.nearest([dent.feature for dent in dents], chainage.segments, "places on the centreline", measuring)
    for dent, (at, off) in zip(dents, found):
        dent.off, dent.chainage = off, chainage.segments[at].chainage(dent.feature.blob, measuring.rule)


def by_group(dents, welds):
    """Each group in its own order: by chainage, else by id. Its place along the pipe is that of its dent nearest to the pipe."""
    groups = {}
    for dent in dents:
        groups.setdefault(dent.feature.group, Group(dent.feature.group)).dents.append(dent)
    for weld in welds:
        if weld.group in groups:
            groups[weld.group].welds.append(weld)
    for group in groups.values():
        if group.dents[0].chainage is not None:
            group.chainage = min(group.dents, key=lambda dent: dent.off).chainage
            group.dents.sort(key=lambda dent: dent.chainage)  # stable: then by id
    return list(groups.values())


def place_in_list(group):
    return (0.0 if group.chainage is None else group.chainage, natural(group.name))


def natural(name):
    """Names in the order that people write them: 9 before 10."""
    return [(0, int(part), "") if part.isdecimal() else (1, 0, part) for part in re.split(r"(\d+)", name) if part]


def widths(groups):
    """The longest line from all dents of a group, struck off or not, to its weld (all its features, where there are several)."""
    faults = []
    for group in groups:
        if not group.welds:
            if group.new:
                faults.append(f"group {group.name}: there are dents and no weld")
            continue
        a = multipoint([vertex for dent in group.dents for vertex in dent.feature.vertices])
        b = multipoint([vertex for weld in group.welds for vertex in weld.vertices])
        try:
            line = measure.longest(a, b)
        except Refusal as refused:
            faults.append(f"group {group.name}: {told(refused)}")
            continue
        if line is None or not math.isfinite(line[0]):
            faults.append(f"group {group.name}: the longest line to its weld is " + ("none" if line is None else str(line[0])))
            continue
        group.width, group.start, group.end = line
    if faults:
        raise Problems(*faults)


# ---- Warnings: the list is whole, and something in the file looks wrong ----

def warnings(listed, groups, features, chainage):
    """In words; those that speak of a dent or a group stand there too."""
    return (of_dents(listed) + of_repeated(features) + of_labels(listed.dents) + of_groups(groups) + of_widths(groups)
            + of_exchanged(groups) + of_pipe(listed.dents, chainage))


def named(things):
    things = [str(thing) for thing in things]
    return ", ".join(things[:NAMED]) + (f" and {len(things) - NAMED} more" if len(things) > NAMED else "")


def warn(text, those):
    """The warning, noted at each dent or group that it speaks of."""
    for one in those:
        one.warnings.append(text)
    return text


def of_dents(listed):
    found = []
    again = [dent for dent in listed.dents if dent.same_as]
    for dent in again:
        dent.warnings.append(f"{dent.feature.name} is {dent.same_as.name} again: not counted twice")
    if again:
        found.append(f"{len(again)} of the rows are a dent that is there already (same geometry, same group), listed and not counted: "
                     + named(f"{dent.feature.name} is {dent.same_as.name} (group {dent.feature.group})" for dent in again))
    places = {}
    for dent in listed.dents:
        places.setdefault(dent.feature.shape, {}).setdefault(dent.feature.group, dent)
    for others in places.values():
        if len(others) > 1:
            text = "one geometry in several groups, counted in each: " + named(
                f"{dent.feature.name} (group {group})" for group, dent in others.items())
            found.append(warn(text, others.values()))
    if not listed.dents:
        found.append("there are no dents")
    elif all(dent.nearest is None for dent in listed.dents):
        found.append("there are no struck-off dents: every dent is new")
    elif len(listed.dents) > 1 and all(dent.distance == 0 for dent in listed.dents):
        found.append("every dent lies exactly on a struck-off one: is the table of struck-off dents a copy of the dents?")
    return found


def of_repeated(features):
    found = []
    for role, what in (("struck", "struck-off dents"), ("welds", "welds")):
        seen, again = {}, []
        for feature in features[role]:
            first = seen.setdefault((feature.group, feature.shape), feature)
            if first is not feature:
                again.append(f"{feature.name} is {first.name}")
        if again:
            found.append(f"{what} that are there more than once (same geometry): {named(again)}")
    return found


def of_labels(dents):
    seen = {}
    for dent in dents:
        if dent.feature.label and not dent.same_as:
            seen.setdefault(dent.feature.label, []).append(dent)
    found = []
    for label, those in seen.items():
        if len(those) > 1:
            text = f"{len(those)} dents have the label {label}: features {named(dent.feature.id for dent in those)}"
            found.append(warn(text, those))
    return found


def of_groups(groups):
    found, alike = [], {}
    for group in groups:
        alike.setdefault("".join(group.name.split()).casefold(), []).append(group)
        if not group.welds:
            group.warnings.append("no weld")
            found.append(f"group {group.name} has no weld (and no new dent)")
    for those in alike.values():
        if len(those) > 1:
            text = "groups whose names differ only in case or spaces: " + named(repr(group.name) for group in those)
            found.append(warn(text, those))
    return found


def of_widths(groups):
    """Against the median of the smaller half, so that welds exchanged between two groups of three still stand out."""
    wide = [group for group in groups if group.width is not None]
    smaller = sorted(group.width for group in wide)[:len(wide) // 2]
    if not smaller:
        return []
    usual = median(smaller)
    found = []
    for group in wide:
        if group.width > FAR_OUT * usual and group.width > usual + 1:
            text = f"group {group.name}: {group.width:.3f} m to its weld is far out of the others (usual: {usual:.3f} m): is it the right weld?"
            found.append(warn(text, [group]))
    return found


def of_exchanged(groups):
    """Two groups, each nearer to the other's weld than to its own."""
    known = [(group, middle(group.dents[0].feature.vertices), middle(group.welds[0].vertices)) for group in groups if group.welds]
    own = [math.dist(dent, weld) for _, dent, weld in known]
    limit = median(own) if own else 0
    long = [(known[at], own[at]) for at in range(len(known)) if own[at] >= limit]
    found = []
    for at, ((a, dent_a, weld_a), own_a) in enumerate(long):
        for (b, dent_b, weld_b), own_b in long[at + 1:]:
            if math.dist(dent_a, weld_b) < own_a and math.dist(dent_b, weld_a) < own_b:
                text = f"groups {a.name} and {b.name}: each is nearer to the other's weld than to its own: are the welds exchanged?"
                found.append(warn(text, [a, b]))
    return found


def middle(places):
    return tuple(sum(axis) / len(places) for axis in zip(*places))


def median(numbers):
    """Of two in the middle the lower."""
    return sorted(numbers)[(len(numbers) - 1) // 2]


def of_pipe(dents, chainage):
    found = []
    if chainage.gaps:
        found.append(f"the centreline's runs do not follow each other ({len(chainage.gaps)} gaps, the widest {max(chainage.gaps):.2f} m): "
                     "chainage adds up the runs by feature id, without the gaps")
    off = [dent for dent in dents if dent.off is not None and dent.off > OFF_PIPE]
    for dent in off:
        dent.warnings.append(f"{dent.feature.name} is {dent.off:.1f} m from the centreline")
    if off:
        farthest = max(off, key=lambda dent: dent.off)
        found.append(f"{len(off)} dents are more than {OFF_PIPE:g} m from the centreline, {farthest.feature.name} the farthest by {farthest.off:.1f} m")
    return found
