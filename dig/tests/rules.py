"""Pair rules: by rule 2 what passes through a face touches it, every output says so, and by rule 1 nothing changes."""
import math
import os
import sqlite3
import struct

from common import HERE, body, content, rows, run, told
from nearest import filled, shape, shapes_file

FORMS = ("csv", "svg", "html", "gpkg")
TOLD = "2: what passes through a face touches it"


def tests(t):
    import dig.build
    import viskorrel
    viskorrel.load(dig.build.library())
    struck_off(t)
    outputs(t)
    along_the_pipe(t, viskorrel)
    same_lists(t)
    t.check("no such rule", all(run(t.whole, "--rule", word).returncode == 2 for word in ("0", "3", "-1", "two", "2.0", "4294967298")))


def place_of(t, dent):
    blob = sqlite3.connect(t.whole).execute("SELECT geom FROM dents WHERE fid = ?", (dent,)).fetchone()[0]
    return struct.unpack_from("<3d", blob, 13)


def upright(x, y, z):
    return shape(2, [(x, y, z - 1), (x, y, z + 1)])


def plate(x, y, z):
    return shape(3, [(x - 1, y - 1, z), (x + 3, y - 1, z), (x - 1, y + 3, z), (x - 1, y - 1, z)])


def crossed(t):
    """The demo's file with dent 2 a rod that passes through a plate, which was struck off; its ends and the plate's edges are a metre away."""
    place = place_of(t, 2)
    return t.changed(("UPDATE dents SET geom = ? WHERE fid = 2", upright(*place)), ("DELETE FROM struck_off WHERE fid = 1",),
                     ("INSERT INTO struck_off (fid, geom) VALUES (9, ?)", plate(*place)))


def row_of(path, dent):
    return next(row for row in rows(path) if row["id"] == str(dent))


def struck_off(t):
    path = crossed(t)
    for rule, state, near in ((1, "NEW", False), (2, "struck off", True)):
        out = t.path(".csv")
        done = run(path, "--csv", out, "--rule", str(rule))
        row = row_of(out, 2) if done.returncode == 0 else {}
        t.check(f"a rod through a plate by rule {rule}", row.get("state") == state and (float(row["distance"]) == 0) == near
                and (row["nearest_id"] == "9") == near, told(done))


def outputs(t):
    """Where it is 2, the rule is told in each; where it is 1, as if there were no rules."""
    path = crossed(t)
    for words, rule in (([], 1), (["--rule", "1"], 1), (["--rule", "2"], 2)):
        out = {form: t.path(f".{form}") for form in FORMS}
        done = run(path, *words, *(word for form in FORMS for word in (f"--{form}", out[form])))
        stamp = dict(sqlite3.connect(out["gpkg"]).execute("SELECT name, value FROM dig_stamp"))
        said = [f"\nrule      {TOLD}\n" in done.stdout, {row.get("rule") for row in rows(out["csv"])} == {"2"}, stamp.get("rule") == "2",
                TOLD.encode() in content(out["svg"]), content(out["html"]).count(TOLD.encode()) > 1]
        t.check(f"the rule in every output: {words}", done.returncode == 0 and said == [rule == 2] * 5, f"{said} {told(done)}")
        silent = "rule" not in done.stdout and "rule" not in rows(out["csv"])[0] and "rule" not in stamp and b">rule" not in content(out["html"])
        t.check(f"and in none: {words}", silent == (rule == 1), told(done))


def along_the_pipe(t, viskorrel):
    """A dent that is a face through which the centreline passes: its chainage is that of the crossing."""
    (pipe,), = sqlite3.connect(t.whole).execute("SELECT geom FROM centreline LIMIT 1")
    run_of = viskorrel.read(pipe)[0][1]
    way = sum(math.dist(a[:2], b[:2]) for a, b in zip(run_of[:2], run_of[1:3]))
    (x1, y1, z1, _), (x2, y2, z2, _) = run_of[2:4]
    long = math.dist((x1, y1), (x2, y2))
    x, y, z, across = (x1 + x2) / 2, (y1 + y2) / 2, (z1 + z2) / 2, ((y1 - y2) / long, (x2 - x1) / long)
    # upright, and so wide that no edge of it is near the pipe
    ring = [(x + by * across[0], y + by * across[1], z + up) for by, up in ((-9, -5), (9, -5), (0, 9), (-9, -5))]
    path = t.changed(("UPDATE dents SET geom = ? WHERE fid = 1", shape(3, ring)))
    ways = []
    for rule in ("1", "2"):
        out = t.path(".csv")
        run(path, "--csv", out, "--rule", rule)
        ways.append(float(row_of(out, 1)["chainage"]))
    t.check("chainage of a face across the pipe", abs(ways[1] - (way + long / 2)) < 1e-6 < abs(ways[0] - ways[1]), f"{ways} {way + long / 2}")


def same_lists(t):
    with open(os.path.join(HERE, "expected.txt")) as file:
        expected = file.read()
    done = run(t.whole, "--rule", "2")
    t.check("points alone: the same list by rule 2", body(done.stdout) == expected, told(done))
    path = shapes_file(t)
    lists = [[line for line in run(path, "--tolerance", "3", "--rule", "2", *more).stdout.splitlines() if not line.startswith("made")]
             for more in ([], ["--no-box-test"])]
    t.check("the same list by rule 2 without the box test", lists[0] == lists[1] and any("NEW" in line for line in lists[0]), str(lists[0][:12]))
    cross = filled(t, [upright(10.0 * n, 0, 0) for n in range(20)], [plate(10.0 * n, 0, 0) for n in range(20)])
    told_of = [run(cross, "--rule", rule).stdout for rule in ("1", "2")]
    t.check("twenty rods through twenty plates", "Whole list: 20 dents, 20 new" in told_of[0] and "Whole list: 20 dents, 0 new" in told_of[1],
            "".join(told_of))
