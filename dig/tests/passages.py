"""The hour of passage: the M of the fix nearest to each dig, as it stands; what has no hour stops the list; without --fixes nothing changes."""
import math
import os
import random
import re
import sqlite3
import struct

from common import HERE, body, content, point, rows, run, told

SRID = 32633
STARTS = {}   # of each dig of the demo, the ends of its longest line: filled from the list itself


def fix(x, y, z, m, srid=SRID):
    return header(srid) + struct.pack("<BI4d", 1, 3001, x, y, z, m)


def header(srid=SRID):
    return struct.pack("<2sBBi", b"GP", 0, 1, srid)


def tests(t):
    digs = {row["group"]: row for row in listed(t, t.whole) if row["dig_width"]}
    for name, row in digs.items():
        STARTS[name] = [tuple(float(row[f"{end}_{axis}"]) for axis in "xyz") for end in ("from", "to")]
    t.check("the demo's digs", sorted(STARTS) == ["A", "B", "C"], str(STARTS))
    outputs(t)
    nearest(t)
    encodings(t)
    numbers(t)
    no_hour(t)
    no_table(t)
    unchanged(t)


def listed(t, path, *options):
    out = t.path(".csv")
    done = run(path, "--csv", out, *options)
    return rows(out) if done.returncode == 0 else []


def tracked(t, blobs, *statements, axes=(1, 1), srid=SRID, source=None):
    """The demo's file with a table of fixes; `blobs` by id."""
    return t.changed(
        ("CREATE TABLE fixes (fid INTEGER PRIMARY KEY NOT NULL, geom POINT)",),
        ("INSERT INTO gpkg_contents (table_name, data_type, identifier, srs_id) VALUES ('fixes', 'features', 'fixes', ?)", srid),
        ("INSERT INTO gpkg_geometry_columns VALUES ('fixes', 'geom', 'POINT', ?, ?, ?)", srid, *axes),
        *[("INSERT INTO fixes VALUES (?, ?)", id, blob) for id, blob in blobs.items()], *statements, source=source)


def hours(found):
    """Of each dig: hour, fix and distance as the CSV has them."""
    return {row["group"]: (row["hour_of_passage"], row["fix_id"], row["fix_distance"]) for row in found if row["hour_of_passage"]}


def at_starts(names="ABC", first=11):
    """A fix at the start of each dig's line, hours 451.5, 452.5 and on."""
    return {first + n: fix(*STARTS[name][0], 451.5 + n) for n, name in enumerate(names)}


def outputs(t):
    """Every output has the hour, the fix and its distance; a group without a dig has none."""
    path = tracked(t, at_starts())
    out = {form: f"{path}.{form}" for form in ("csv", "svg", "html", "gpkg")}
    done = run(path, "--fixes", "fixes", *[word for form, file in out.items() for word in (f"--{form}", file)])
    found = rows(out["csv"]) if done.returncode == 0 else []
    t.check("CSV", hours(found) == {"A": ("451.5", "11", "0.0"), "B": ("452.5", "12", "0.0"), "C": ("453.5", "13", "0.0")}, told(done))
    t.check("every dent of a dig has them, a group without a dig none", found and all(
        (row["hour_of_passage"] != "") == (row["dig_width"] != "") == (row["fix_id"] != "") == (row["fix_distance"] != "") for row in found)
        and {row["group"] for row in found if not row["fix_id"]} == {"D"}, str(found))
    digs = done.stdout.partition("\nDIGS")[2].partition("\n\n")[0].splitlines()
    t.check("printed list", digs[1].endswith("z  hour of passage  of fix  fix distance m")
            and [line.split()[-3:] for line in digs[2:]] == [["451.5", "11", "0.000"], ["452.5", "12", "0.000"], ["453.5", "13", "0.000"]], told(done))
    file = sqlite3.connect(out["gpkg"])
    t.check("layers", file.execute("SELECT dent_group, hour_of_passage, fix_id, fix_distance FROM dig_lines ORDER BY fid").fetchall()
            == [("A", 451.5, 11, 0.0), ("B", 452.5, 12, 0.0), ("C", 453.5, 13, 0.0)])
    file.close()
    page = content(out["html"]).decode()
    t.check("page: the table", re.search(r"<th[^>]*>hour of passage</th><th[^>]*>of fix</th><th[^>]*>fix distance m</th></tr>", page)
            and re.search(r"<td[^>]*>452.5</td><td[^>]*>12</td><td[^>]*>0.000</td></tr>", page))
    t.check("page: the sheets", re.findall(r"hour of passage <b>(.*?)</b> \(fix (\d+), (.*?) m away\)", page)
            == [("451.5", "11", "0.000"), ("452.5", "12", "0.000"), ("453.5", "13", "0.000")])
    none = tracked(t, at_starts(), ("DELETE FROM dents",))
    done = run(none, "--fixes", "fixes", "--csv", none + ".csv")
    found = rows(none + ".csv") if done.returncode == 0 else []
    t.check("no dents: one row, as wide as its head", len(found) == 1 and found[0]["state"] == "no dents" and found[0]["hour_of_passage"] == ""
            and found[0]["sha256"] and None not in found[0] and None not in found[0].values(), told(done))


def nearest(t):
    """By 3D distance to the dig's line, as the library measures it; of several as near the first id."""
    a, b = STARTS["A"]
    middle = tuple((p + q) / 2 for p, q in zip(a, b))
    path = tracked(t, {1: fix(*a[:2], a[2] - 9, 1.0), 2: fix(a[0] + 3, a[1] + 3, a[2], 2.0)})
    t.check("in 3D, not in plan", hours(listed(t, path, "--fixes", "fixes"))["A"][:2] == ("2.0", "2"))
    path = tracked(t, {1: fix(a[0] - 0.5, *a[1:], 1.0), 2: fix(*middle[:2], middle[2] + 0.4, 2.0)})
    t.check("to the line, not to its ends", hours(listed(t, path, "--fixes", "fixes"))["A"][:2] == ("2.0", "2"))
    path = tracked(t, {9: fix(*a, 9.0), 4: fix(*a, 4.0), 7: fix(*a, 7.0)})
    t.check("of several as near the first id", hours(listed(t, path, "--fixes", "fixes"))["A"] == ("4.0", "4", "0.0"))
    path = tracked(t, {9: fix(*middle[:2], middle[2] + 3, 9.0)})
    t.check("one fix for all", {hour[:2] for hour in hours(listed(t, path, "--fixes", "fixes")).values()} == {("9.0", "9")})
    random.seed(7)
    places = {id: tuple(m + random.uniform(-40, 40) for m in middle) for id in random.sample(range(10000), 400)}
    path = tracked(t, {id: fix(*place, random.choice([math.pi, -1e30, 1e300, 3.0]) * id) for id, place in places.items()})
    found = hours(listed(t, path, "--fixes", "fixes"))
    right = {}
    for name, (start, end) in STARTS.items():
        distance, id = min((from_segment(place, start, end), id) for id, place in places.items())
        right[name] = (id, distance)
    t.check("400 fixes, against the same by Python", sorted(found) == ["A", "B", "C"] and all(
        int(found[name][1]) == id and abs(float(found[name][2]) - distance) < 1e-9 for name, (id, distance) in right.items()), f"{found} {right}")
    t.check("the same without the box test", hours(listed(t, path, "--fixes", "fixes", "--no-box-test")) == found)


def from_segment(place, start, end):
    step = [q - p for p, q in zip(start, end)]
    at = sum((p - q) * s for p, q, s in zip(place, start, step)) / sum(s * s for s in step)
    at = min(1.0, max(0.0, at))
    return math.dist(place, [p + at * s for p, s in zip(start, step)])


def encodings(t):
    x, y, z = STARTS["A"][0]
    alone = {
        "big-endian, an envelope": struct.pack(">2sBBi4d", b"GP", 0, 2, SRID, x, x, y, y) + struct.pack(">BI4d", 0, 3001, x, y, z, 7.5),
        "flags for thousands": header() + struct.pack("<BI4d", 1, 0xC0000001, x, y, z, 7.5),
        "an SRID inside": header() + struct.pack("<BII4d", 1, 0xE0000001, SRID, x, y, z, 7.5),
        "an envelope with Z and M": struct.pack("<2sBBi8d", b"GP", 0, 9, SRID, *[1.0] * 8) + fix(x, y, z, 7.5)[8:],
        "a multipoint of one": header() + struct.pack("<BII", 1, 3004, 1) + fix(x, y, z, 7.5)[8:],
        "one point in collections": header() + struct.pack("<BII", 1, 1007, 1) + struct.pack(">BIII", 0, 0x20000007, 1, 1) + fix(x, y, z, 7.5)[8:],
        "bytes after it": fix(x, y, z, 7.5) + struct.pack("<d", 99.0)}
    for name, blob in alone.items():
        done = listed(t, tracked(t, {3: blob}), "--fixes", "fixes")
        t.check(f"a fix: {name}", hours(done).get("A") == ("7.5", "3", "0.0"), str(done[:1]))
    path = tracked(t, {3: header() + struct.pack("<BI3d", 1, 0x80000000 + 2001, x, y, 7.5)})
    t.check("XYM that passes the Z test: a height of 0", hours(listed(t, path, "--fixes", "fixes")).get("A", [])[:2] == ("7.5", "3"))


def numbers(t):
    """M as it stands, in the shortest form that reads back as it."""
    place = STARTS["A"][0]
    for m, shown in [(0.1 + 0.2, "0.30000000000000004"), (451.0, "451.0"), (0.0, "0.0"), (-0.0, "-0.0"), (5e-324, "5e-324"), (1e22, "1e+22"),
                     (-7.25, "-7.25"), (1700000000.125, "1700000000.125")]:
        path = tracked(t, {3: fix(*place, m)})
        out = path + ".gpkg"
        done = run(path, "--fixes", "fixes", "--csv", path + ".csv", "--gpkg", out, "--html", path + ".html")
        held = sqlite3.connect(out).execute("SELECT hour_of_passage FROM dig_lines").fetchone()[0] if done.returncode == 0 else None
        t.check(f"M {shown}", done.returncode == 0 and hours(rows(path + ".csv"))["A"][0] == shown and held == m
                and f"<b>{shown}</b> (fix 3" in content(path + ".html").decode() and f" {shown} " in done.stdout, told(done))


def no_hour(t):
    """Not one is taken for hour 0, and none is passed over."""
    good = at_starts()
    x, y, z = STARTS["B"][0]

    def faulty(name, blob, words, id=20):
        t.no_list(name, tracked(t, {**good, id: blob}, axes=(1, 2)), f"fixes, feature {id}: {words}", options=["--fixes", "fixes"])
    no_m = "there is no M, so no hour of passage"
    faulty("no M", point(x, y, z), no_m)
    faulty("no M, and bytes after it", point(x, y, z) + struct.pack("<d", 7.0), no_m)
    faulty("no M in a multipoint that says M", header() + struct.pack("<BII", 1, 3004, 1) + point(x, y, z)[8:], no_m)
    faulty("thousands against flag M", header() + struct.pack("<BI3d", 1, 0x40000000 + 1001, x, y, z), no_m)
    faulty("M is NaN", fix(x, y, z, math.nan), "M is nan, which is no hour of passage")
    faulty("M is infinite", fix(x, y, z, -math.inf), "M is -inf, which is no hour of passage")
    faulty("no geometry", None, "there is no geometry")
    faulty("no blob", "POINT ZM (1 2 3 4)", "the geometry is no blob")
    faulty("an empty multipoint", header() + struct.pack("<BII", 1, 3004, 0), "the geometry is empty")
    faulty("POINT ZM EMPTY", fix(math.nan, math.nan, math.nan, math.nan), "a coordinate is NaN or infinite")
    faulty("an infinite coordinate", fix(x, math.inf, z, 7.0), "a coordinate is NaN or infinite")
    faulty("a line", header() + struct.pack("<BII8d", 1, 3002, 2, x, y, z, 1, x, y, z, 2), "a fix is one point")
    faulty("two points", header() + struct.pack("<BII", 1, 3004, 2) + fix(x, y, z, 1)[8:] * 2, "a fix is one point")
    faulty("another SRID", fix(x, y, z, 7.0, srid=4326), "the blob's SRID is not the table's, 32633")
    faulty("cut off", fix(x, y, z, 7.0)[:-1], "refusal 9: a geometry's header, an SRID, a count or a run of coordinates is longer than the bytes left")
    faulty("no Z", header() + struct.pack("<BI3d", 1, 2001, x, y, 7.0), "refusal 13: operations on two blobs: the type at the top has no Z; "
           "ogr2ogr -zfield COLUMN takes heights from a column")
    t.no_list("several at once, with another layer's", tracked(t, {**good, 20: point(x, y, z), 21: b"GP", 22: fix(x, y, z, math.nan)},
                                                               ("UPDATE dents SET geom = x'4750' WHERE fid = 2",)),
              'dents, feature 2: refusal 3: the blob starts with "GP" and has under 8 bytes', 'fixes, feature 21: refusal 3: the blob starts with "GP" and has under 8 bytes',
              f"fixes, feature 20: {no_m}", "fixes, feature 22: M is nan, which is no hour of passage", options=["--fixes", "fixes"])
    t.no_list("too far to measure", tracked(t, {3: fix(1e300, y, z, 7.0)}),
              *[f"dig_lines, feature {name} with fixes, feature 3: the distance is inf" for name in "ABC"], options=["--fixes", "fixes"])


def no_table(t):
    x, y, z = STARTS["A"][0]
    path = t.changed()
    t.no_list("no such table", path, f"{path}: no feature table hours for the fixes (--fixes names one); "
              "feature tables: centreline, dents, fittings, struck_off, welds", options=["--fixes", "hours"])
    for m in (0, 1, 2):
        t.no_list(f"no fix has M, m {m}", tracked(t, {1: point(x, y, z), 2: point(x, y, z + 1)}, axes=(1, m)),
                  f"fixes: no fix has M, which is to be the hour of passage (gpkg_geometry_columns has m {m})", options=["--fixes", "fixes"])
    t.no_list("no fix at all", tracked(t, {}), "fixes: there is no fix in it", options=["--fixes", "fixes"])
    t.no_list("a table of the demo", t.changed(), "table struck_off is taken for --struck and --fixes: each needs a table of its own", options=["--fixes", "Struck_Off"])
    other = tracked(t, {1: fix(x, y, z, 7.0, srid=4326)}, srid=4326)
    t.refused("degrees", other, "fixes", "4326", options=["--fixes", "fixes"])
    t.check("the same file without them", body(run(other).stdout) == expected())
    t.check("a table by any case", hours(listed(t, tracked(t, {1: fix(x, y, z, 7.0)}), "--fixes", "FIXES"))["A"] == ("7.0", "1", "0.0"))


def expected():
    with open(os.path.join(HERE, "expected.txt")) as file:
        return file.read()


def unchanged(t):
    """Without --fixes a table of that name is no part of the list; and M of the other layers is no part of it either."""
    path = tracked(t, {1: b"GP", 2: None, **at_starts()}, axes=(1, 2))
    out = path + ".gpkg"
    done = run(path, "--csv", path + ".csv", "--html", path + ".html", "--gpkg", out)
    t.check("not asked for: the same list", body(done.stdout) == expected() and "warning" not in done.stderr, told(done))
    heads = content(path + ".csv").decode().splitlines()[0]
    t.check("not asked for: the same columns", heads == "dent,id,group,chainage,nearest_struck_off,nearest_id,distance,state,same_as,dig_width,"
            "from_x,from_y,from_z,to_x,to_y,to_z,dig_chainage,warnings,file,sha256,made,tolerance,system,program,library", heads)
    columns = [row[1] for row in sqlite3.connect(out).execute("PRAGMA table_info(dig_lines)")]
    t.check("not asked for: the same layer", columns == ["fid", "geom", "dent_group", "chainage", "width", "dents", "new_dents", "warnings"], str(columns))
    t.check("not asked for: the same page", b"hour of passage" not in content(path + ".html"))
    asked = run(path, "--fixes", "fixes")
    t.check("asked for, its faults are told", asked.returncode == 1 and "fixes, feature 2: there is no geometry" in asked.stderr, told(asked))
    file = sqlite3.connect(t.whole)
    with_m = [(f"UPDATE {table} SET geom = ? WHERE fid = ?", fix(*struct.unpack_from("<3d", blob, 13), m), id)
              for table in ("dents", "struck_off") for m, (id, blob) in zip([math.nan, math.inf, -1e300, 0.0, 7.0] * 2, file.execute(f"SELECT fid, geom FROM {table}"))]
    done = run(t.changed(*with_m))
    t.check("M of dents and struck-off dents, NaN too, changes nothing", body(done.stdout) == expected() and "warning" not in done.stderr, told(done))
    x, y, z = struct.unpack_from("<3d", file.execute("SELECT geom FROM dents WHERE fid = 2").fetchone()[0], 13)
    file.close()
    done = run(t.changed(*[("INSERT INTO dents (geom, dent_group) VALUES (?, 'A')", fix(x, y, z, m)) for m in (1.0, math.nan)]))
    t.check("the same dent with another M is the same dent", "2 of the rows are a dent that is there already" in done.stderr
            and "Whole list: 10 dents, 6 new; 3 digs; 2 rows not counted" in done.stdout, told(done))
