"""The dig list in words, and as CSV."""
import re

from dig.diglist import NEW

WIDTH = "the longest line from all dents of the group, struck off or not, to its weld"
PASSAGE = "the M of the fix that is nearest to that line, as the file has it"
NUMBER = re.compile(r"-?\d+(\.\d+)?(e[+-]?\d+)?")


def counted(number, noun):
    return f"{number} {noun}" + ("" if number == 1 else "s")


def digits(distance, tolerance, state):
    """A distance to the millimetre, or with as many digits as it takes to stand on its side of the tolerance."""
    for places in range(3, 18):
        shown = f"{distance:.{places}f}"
        if (float(shown) <= tolerance) == (state != NEW):
            return shown
    return repr(distance)


def even(numbers):
    """Numbers of different lengths with their points below each other."""
    most = max((len(number.partition(".")[2]) for number in numbers), default=0)
    return [number + " " * (most - len(number.partition(".")[2])) for number in numbers]


def way(number):
    return "-" if number is None else f"{number:.2f}"


def dent_name(dent):
    return dent.feature.name


def nearest_name(dent):
    return dent.nearest.name if dent.nearest else None


def state(dent):
    return f"{dent.state} (same as {dent.same_as.name})" if dent.same_as else dent.state


def passage_heads(listed):
    """The columns of the fix nearest to a dig; without fixes there are none."""
    return ["hour of passage", "of fix", "fix distance m"] if listed.passages else []


def passage(dig):
    return [repr(dig.passage.hour), dig.passage.fix.id, f"{dig.passage.distance:.3f}"] if dig.passage else []


def summary(listed):
    again = len(listed.dents) - listed.count
    repeated = f"; {counted(again, 'row')} not counted, the same dent again" if again else ""
    return f"{counted(listed.count, 'dent')}, {listed.new} new; {counted(len(listed.digs), 'dig')}{repeated}"


def text(listed, tolerance):
    lines = ["DIG LIST"] + [f"{name:<9} {value}" for name, value in listed.stamp.rows()]
    if listed.warnings:
        lines += ["", "WARNINGS"] + [f"! {line}" for line in listed.warnings]
    lines += ["", f"DENTS (struck off within {tolerance!r} m of a struck-off dent)"]
    distances = even([digits(dent.distance, tolerance, dent.state) if dent.nearest else "-" for dent in listed.dents])
    table = [[dent_name(dent), dent.feature.group, way(dent.chainage), nearest_name(dent) or "-", distance, state(dent)]
             for dent, distance in zip(listed.dents, distances)]
    labelled = any(dent.feature.label for dent in listed.dents)
    heads, sides = ["dent", "group", "chainage m", "nearest struck-off", "distance m", "state"], "<<><><" if labelled else "><>>><"
    lines += aligned(*without_chainage(listed, heads, sides, table, 2))
    lines += ["", f"DIGS (groups with a new dent; width: {WIDTH}" + (f"; hour of passage: {PASSAGE})" if listed.passages else ")")]
    table = [[dig.name, way(dig.chainage), dig.count, dig.new, f"{dig.width:.3f}"] + [f"{number:.3f}" for number in dig.start + dig.end] + passage(dig)
             for dig in listed.digs]
    heads = ["group", "chainage m", "dents", "new", "width m", "from dent x", "y", "z", "to weld x", "y", "z"] + passage_heads(listed)
    lines += aligned(*without_chainage(listed, heads, "<" + ">" * (len(heads) - 1), table, 1))
    if listed.quiet:
        lines += ["", "NO DIG (every dent of the group is struck off)"]
        table = [[group.name, way(group.chainage), group.count] for group in listed.quiet]
        lines += aligned(*without_chainage(listed, ["group", "chainage m", "dents"], "<>>", table, 1))
    lines += ["", f"Whole list: {summary(listed)}."]
    return "\n".join(lines) + "\n"


def without_chainage(listed, heads, sides, table, at):
    """Without a centreline there is no such column."""
    if listed.chainage:
        return heads, sides, table
    return heads[:at] + heads[at + 1:], sides[:at] + sides[at + 1:], [row[:at] + row[at + 1:] for row in table]


def aligned(heads, sides, rows):
    rows = [heads] + [[str(cell) for cell in row] for row in rows]
    widths = [max(len(row[at]) for row in rows) for at in range(len(heads))]
    return ["  ".join(f"{cell:{side}{width}}" for cell, side, width in zip(row, sides, widths)).rstrip() for row in rows]


def inert(cell):
    """A cell that no spreadsheet takes for a formula: text that starts as one gets an apostrophe before it."""
    cell = str(cell)
    return "'" + cell if cell[:1] in ("=", "+", "-", "@", "\t", "\r") and not NUMBER.fullmatch(cell) else cell


def rows_to_csv(rows):
    import csv  # what a run does not need is not loaded
    import io
    out = io.StringIO()
    writer = csv.writer(out, lineterminator="\n")
    writer.writerows([inert("" if cell is None else cell) for cell in row] for row in rows)
    return out.getvalue()


def table(listed):
    """The list as CSV: a row for each dent, with its group's dig and the stamp; where there are no dents, one row with the stamp."""
    groups = {group.name: group for group in listed.digs + listed.quiet}
    digging = {group.name for group in listed.digs}
    stamp = listed.stamp.columns()
    passages = ["hour_of_passage", "fix_id", "fix_distance"] if listed.passages else []
    rows = [["dent", "id", "group", "chainage", "nearest_struck_off", "nearest_id", "distance", "state", "same_as", "dig_width",
             "from_x", "from_y", "from_z", "to_x", "to_y", "to_z", "dig_chainage", *passages, "warnings", *(name for name, _ in stamp)]]
    general = [line for line in listed.warnings if not any(line in thing.warnings for thing in listed.dents + list(groups.values()))]
    for dent in listed.dents:
        group = groups[dent.feature.group]
        dig = [repr(number) for number in (group.width, *group.start, *group.end)] if group.name in digging else [""] * 7
        fix = [repr(group.passage.hour), group.passage.fix.id, repr(group.passage.distance)] if group.passage else [""] * len(passages)
        rows.append([
            dent_name(dent), dent.feature.id, group.name, shown(dent.chainage), nearest_name(dent), dent.nearest.id if dent.nearest else None,
            shown(dent.distance), dent.state, dent.same_as.name if dent.same_as else None, *dig, shown(group.chainage), *fix,
            "; ".join(dent.warnings + group.warnings + general), *(value for _, value in stamp)])
    if not listed.dents:
        rows.append([""] * 7 + ["no dents"] + [""] * (9 + len(passages)) + ["; ".join(general), *(value for _, value in stamp)])
    return rows_to_csv(rows)


def shown(number):
    return None if number is None else repr(number)
