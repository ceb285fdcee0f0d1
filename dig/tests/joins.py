"""Copies joined: what comes in, what stays, what is refused; the joined file by SQLite and by GDAL."""
import json
import os
import re
import sqlite3
import struct

from common import content, ogr, point, rows, run, sha256, told

X, Y = 500100.0, 5600200.0


def tests(t):
    told_apart(t)
    for name, base in (("plain", t.changed()), ("by GDAL", by_gdal(t))):
        week(t, name, base)
        conflicts(t, name, base)
    definitions(t)
    others(t)
    failures(t)
    boxes(t)


def told_apart(t):
    """Who looks for a join of two geometries is sent to the functions."""
    for words in (["--help"], ["join", "--help"]):
        done = run(*words)
        t.check(f"{' '.join(words)}: what joins geometries", all(name in done.stdout for name in ("viskorrel.join", "Viskorrel_Join", "viskorrel_join")), told(done))


def by_gdal(t):
    """A base with GDAL's spatial indexes, counts and their triggers."""
    path = t.path()
    done = ogr("ogr2ogr", "-f", "GPKG", path, t.whole)
    t.check("GDAL writes the base", done.returncode == 0 and os.path.exists(path), told(done))
    return path


def edited(t, source, name, *statements):
    """A copy of a file as a tablet would have it, under a name of its own."""
    folder = os.path.dirname(t.path())
    return t.changed(*statements, source=source, path=os.path.join(folder, f"{t.files}-{name}"))


def dent(id, x, group, z=-2.0):
    return ("INSERT INTO dents (fid, geom, dent_group) VALUES (?, ?, ?)", id, point(X + x, Y + 1.0, z), group)


def all_rows(path, table):
    file = sqlite3.connect(path)
    names = [row[1] for row in file.execute(f"PRAGMA table_info({table})")]
    found = {row[0]: dict(zip(names, row)) for row in file.execute(f"SELECT * FROM {table}")}
    file.close()
    return found


def week(t, name, base):
    one = edited(t, base, "one.gpkg", dent(11, 7.0, "A"), dent(12, 20.0, "B"), ("UPDATE dents SET dent_group = 'B' WHERE fid = 1",))
    two = edited(t, base, "two.gpkg", dent(11, 20.0, "B"), dent(12, 70.0, "C", -9.0), ("DELETE FROM dents WHERE fid = 10",),
                 ("UPDATE struck_off SET name = 'seen' WHERE fid = 2",))
    three = edited(t, base, "three.gpkg", ("UPDATE struck_off SET name = 'seen' WHERE fid = 2",))
    inputs = [base, one, two, three]
    before, listing = [content(path) for path in inputs], sorted(os.listdir(t.folder))
    out = t.path()
    done = run("join", out, "--base", base, one, two, three)
    t.check(f"{name}: joined", done.returncode == 0, told(done))
    if done.returncode:
        return
    made = {os.path.basename(out), os.path.basename(out)[:-5] + "-join.csv"}
    t.check(f"{name}: no input touched", [content(path) for path in inputs] == before and set(os.listdir(t.folder)) == set(listing) | made)
    dents, old = all_rows(out, "dents"), all_rows(base, "dents")
    t.check(f"{name}: rows that no copy changed stay", all({**old[id], "joined_from": None} == dents.get(id) for id in range(2, 10)), str(dents))
    t.check(f"{name}: a change of one copy", dents[1]["dent_group"] == "B" and dents[1]["geom"] == old[1]["geom"])
    t.check(f"{name}: a deletion", 10 not in dents)
    added = {id: (row["dent_group"], row["joined_from"]) for id, row in dents.items() if id > 10}
    a, b = os.path.basename(one), os.path.basename(two)
    t.check(f"{name}: additions under new ids, with their copy; the same row once", added == {13: ("A", a), 14: ("B", f"{a}, {b}"), 15: ("C", b)}, str(added))
    t.check(f"{name}: the same change of two copies", all_rows(out, "struck_off")[2]["name"] == "seen")
    t.check(f"{name}: the report", "Whole join: 25 kept, 2 changed, 1 deleted, 3 added." in done.stdout and "in once" in done.stdout
            and sha256(one) in done.stdout, told(done))
    report = [(row["table"], row["id"], row["what"], row["from"], row["id_there"]) for row in rows(out[:-5] + "-join.csv")]
    t.check(f"{name}: the report as CSV", all(line in report for line in [
        ("dents", "14", "added", a, "12"), ("dents", "14", "added", b, "11"), ("dents", "10", "deleted", b, "10"), ("dents", "1", "changed", a, "1"),
        ("dents", "5", "kept", os.path.basename(base), "5")]), str(report))
    whole(t, name, out)
    listed = run(out)
    t.check(f"{name}: the list of the joined file", listed.returncode == 0 and "12 dents" in listed.stdout, told(listed))
    again = edited(t, out, "again.gpkg", dent(16, 8.0, "A"))
    second = t.path()
    done = run("join", second, "--base", out, again)
    t.check(f"{name}: joined once more", done.returncode == 0 and all_rows(second, "dents")[17]["joined_from"] == os.path.basename(again)
            and all_rows(second, "dents")[13]["joined_from"] == a, told(done))


def whole(t, name, path):
    """Integrity, spatial indexes, extents, counts; and GDAL reads the same."""
    file = sqlite3.connect(path)
    t.check(f"{name}: integrity", file.execute("PRAGMA integrity_check").fetchall() == [("ok",)] and not file.execute("PRAGMA foreign_key_check").fetchall())
    places = {id: struct.unpack_from("<2d", geom, 13) for id, geom in file.execute("SELECT fid, geom FROM dents")}
    xs, ys = zip(*places.values())
    extent = file.execute("SELECT min_x, min_y, max_x, max_y FROM gpkg_contents WHERE table_name = 'dents'").fetchone()
    t.check(f"{name}: extent", extent == (min(xs), min(ys), max(xs), max(ys)), str(extent))
    if file.execute("SELECT 1 FROM sqlite_master WHERE name = 'rtree_dents_geom'").fetchone():
        t.check(f"{name}: spatial index checked", file.execute("SELECT rtreecheck('rtree_dents_geom')").fetchone() == ("ok",))
        index = {id: box for id, *box in file.execute("SELECT * FROM rtree_dents_geom")}
        t.check(f"{name}: spatial index", set(index) == set(places) and all(
            index[id][0] <= x <= index[id][1] and index[id][2] <= y <= index[id][3] and index[id][1] - index[id][0] < 1 for id, (x, y) in places.items()), str(index))
        count = file.execute("SELECT feature_count FROM gpkg_ogr_contents WHERE table_name = 'dents'").fetchone()
        t.check(f"{name}: count", count == (len(places),), str(count))
    elif name == "by GDAL":
        t.check("by GDAL: a spatial index is there", False)
    file.close()
    done = ogr("ogrinfo", "-al", "-so", path, "dents")
    t.check(f"{name}: GDAL opens it", done.returncode == 0 and f"Feature Count: {len(places)}" in done.stdout and "joined_from: String" in done.stdout
            and "ERROR" not in done.stderr and "Warning" not in done.stderr, told(done))
    near = ogr("ogr2ogr", "-f", "GeoJSON", "/vsistdout/", path, "dents", "-spat", str(X + 69), str(Y), str(X + 71), str(Y + 2), "-lco", "RFC7946=NO")
    found = len(json.loads(near.stdout)["features"]) if near.returncode == 0 else -1
    t.check(f"{name}: GDAL finds the new dent by its place", found == 1, told(near))


def conflicts(t, name, base):
    one = edited(t, base, "one.gpkg", ("UPDATE dents SET dent_group = 'B' WHERE fid = 2",), ("UPDATE welds SET dent_group = 'Z' WHERE fid = 4",), dent(20, 9.0, "A"))
    two = edited(t, base, "two.gpkg", ("UPDATE dents SET dent_group = 'C' WHERE fid = 2",), ("DELETE FROM welds WHERE fid = 4",))
    out = t.path()
    done = run("join", out, "--base", base, one, two)
    a, b = os.path.basename(one), os.path.basename(two)
    t.check(f"{name}: conflicts are named, and there is no output", done.returncode == 1 and done.stdout == "" and not os.path.exists(out)
            and not os.path.exists(out[:-5] + "-join.csv")
            and f"error: conflict: dents, row 2: {a} changed dent_group from 'A' to 'B'; {b} changed dent_group from 'A' to 'C'" in done.stderr
            and f"error: conflict: welds, row 4: {a} changed dent_group from 'D' to 'Z'; {b} deleted it" in done.stderr, told(done))
    for prefer, group, weld in ((one, "B", "Z"), (two, "C", None), (base, "A", "D")):
        out = t.path()
        done = run("join", out, "--base", base, one, two, "--prefer", prefer)
        right = done.returncode == 0 and all_rows(out, "dents")[2]["dent_group"] == group and all_rows(out, "welds").get(4, {}).get("dent_group") == weld
        t.check(f"{name}: {os.path.basename(prefer)} preferred", right and "is preferred" in done.stdout and 21 in all_rows(out, "dents"), told(done))
    three = edited(t, base, "three.gpkg")
    done = run("join", t.path(), "--base", base, one, two, three, "--prefer", three)
    t.check(f"{name}: one that took no part decides nothing", done.returncode == 1 and "conflict" in done.stderr, told(done))
    done = run("join", t.path(), "--base", base, one, two, "--prefer", "nobody.gpkg")
    t.check(f"{name}: --prefer of no file", done.returncode == 1 and "nobody.gpkg" in done.stderr, told(done))


def definitions(t):
    base = t.changed()
    for name, words, *statements in [
            ("a new column", "table dents: a column depth, which the base has not", ("ALTER TABLE dents ADD COLUMN depth REAL",)),
            ("a column less", "table dents: no column dent_group, which the base has", ("ALTER TABLE dents DROP COLUMN dent_group",)),
            ("a column renamed", "table welds: no column dent_group", ("ALTER TABLE welds RENAME COLUMN dent_group TO party",)),
            ("another type", "column name is INTEGER, in the base TEXT", ("ALTER TABLE struck_off DROP COLUMN name",), ("ALTER TABLE struck_off ADD COLUMN name INTEGER",)),
            ("another system", "the geometry is POINT (column geom, system 4326", ("UPDATE gpkg_geometry_columns SET srs_id = 4326 WHERE table_name = 'dents'",)),
            ("a system defined otherwise", "reference system 32633 is defined otherwise", ("UPDATE gpkg_spatial_ref_sys SET definition = 'x' WHERE srs_id = 32633",)),
            ("a table less", "there is no table dents", ("DROP TABLE dents",), ("DELETE FROM gpkg_geometry_columns WHERE table_name = 'dents'",),
             ("DELETE FROM gpkg_contents WHERE table_name = 'dents'",)),
            ("a table more", "there is a table notes", ("CREATE TABLE notes (fid INTEGER PRIMARY KEY, word TEXT)",),
             ("INSERT INTO gpkg_contents (table_name, data_type, identifier) VALUES ('notes', 'attributes', 'notes')",))]:
        out = t.path()
        done = run("join", out, "--base", base, edited(t, base, "tablet.gpkg", *statements))
        t.check(f"definitions: {name}", done.returncode == 1 and words in done.stderr and not os.path.exists(out) and "Traceback" not in done.stderr, told(done))


def others(t):
    """Attributes, other tables, rows that point at each other, two equal rows in one copy, unchanged copies."""
    base = t.changed(("CREATE TABLE notes (fid INTEGER PRIMARY KEY, dent INTEGER REFERENCES dents (fid), word TEXT UNIQUE)",),
                     ("INSERT INTO notes VALUES (1, 2, 'deep')",),
                     ("INSERT INTO gpkg_contents (table_name, data_type, identifier) VALUES ('notes', 'attributes', 'notes')",),
                     ("CREATE TABLE scratch (word TEXT)",), ("CREATE VIEW seen AS SELECT * FROM dents",))
    one = edited(t, base, "one.gpkg", ("INSERT INTO notes VALUES (2, 3, 'long')",), dent(11, 7.0, "A"), dent(12, 7.0, "A"))
    out = t.path()
    done = run("join", out, "--base", base, one, edited(t, base, "same.gpkg"))
    t.check("attributes, and two equal rows of one copy", done.returncode == 0 and all_rows(out, "notes")[3]["word"] == "long"
            and sorted(all_rows(out, "dents"))[-2:] == [13, 14], told(done))
    listed = run(out)
    t.check("the list reports them", "14 is 13 (group A)" in listed.stderr and "11 dents" in listed.stdout, told(listed))
    done = run("join", t.path(), "--base", base, edited(t, base, "refers.gpkg", dent(11, 7.0, "A"), ("INSERT INTO notes VALUES (2, 11, 'new')",)))
    t.check("a row that points at an added row", done.returncode == 1 and "points with dent at row 11 of dents" in done.stderr, told(done))
    done = run("join", t.path(), "--base", base, edited(t, base, "u1.gpkg", ("INSERT INTO notes VALUES (2, 3, 'x')",)),
               edited(t, base, "u2.gpkg", ("INSERT INTO notes VALUES (2, 4, 'x')",)))
    t.check("rows that exclude each other", done.returncode == 1 and "UNIQUE" in done.stderr and "table notes" in done.stderr, told(done))
    done = run("join", t.path(), "--base", base, edited(t, base, "scratch.gpkg", ("INSERT INTO scratch VALUES ('x')",)))
    t.check("a table that is not joined is told", done.returncode == 0 and "table scratch differs" in done.stderr and "table scratch differs" in done.stdout, told(done))
    done = run("join", t.path(), "--base", base, edited(t, base, "gone.gpkg", ("DELETE FROM dents WHERE fid = 2",)))
    t.check("a row that points at a deleted one", done.returncode == 1 and "points at none" in done.stderr, told(done))
    labelled = t.changed(("ALTER TABLE dents ADD COLUMN crew TEXT",), ("UPDATE dents SET crew = 'K' || (100 + fid)",), ("UPDATE dents SET crew = NULL WHERE fid = 3",))
    done = run(labelled, "--label", "crew", "--csv", labelled + ".csv")
    t.check("--label names dents by what the crew wrote", done.returncode == 0 and "K102" in done.stdout and re.search(r"^3 +A ", done.stdout, re.MULTILINE), told(done))
    t.check("--label: the CSV has both", [(row["dent"], row["id"]) for row in rows(labelled + ".csv")][:2] == [("K101", "1"), ("K102", "2")])
    t.refused("--label: no such column", labelled, "no column nick for the label", options=["--label", "nick"])
    done = run(t.changed(("UPDATE dents SET crew = 'K1'",), source=labelled), "--label", "crew")
    t.check("--label: used twice", "10 dents have the label K1" in done.stderr, told(done))


def failures(t):
    base = t.changed()
    copy = edited(t, base, "tablet.gpkg", dent(11, 7.0, "A"))
    there = t.changed()
    before = content(there)
    done = run("join", there, "--base", base, copy)
    t.check("never over a file", done.returncode == 1 and content(there) == before and "is there" in done.stderr, told(done))
    done = run("join", t.path(), "--base", base, copy, "--csv", there)
    t.check("nor over one by the report", done.returncode == 1 and content(there) == before and "left alone" in done.stderr, told(done))
    for name, words, inputs in [("the base twice", "given twice", [base]), ("no such file", "no such file", [copy + ".none"]),
                                ("a directory", "is a directory", [t.folder]), ("a copy that is damaged", "damaged", [cut(t, copy)])]:
        out = t.path()
        done = run("join", out, "--base", base, *inputs)
        t.check(name, done.returncode == 1 and words in done.stderr and "Nothing joined." in done.stderr and not os.path.exists(out), told(done))
    t.check("no base", run("join", t.path(), copy).returncode == 2)
    done = run("join", os.path.join(t.folder, "none", "out.gpkg"), "--base", base, copy)
    t.check("a folder that is not there", done.returncode == 1 and "cannot" in done.stderr or "unable" in done.stderr, told(done))
    log = edited(t, base, "log.gpkg")
    file = sqlite3.connect(log)
    file.execute("PRAGMA journal_mode = WAL")
    file.close()
    done = run("join", t.path(), "--base", base, log)
    t.check("a copy without its -wal is warned about", done.returncode == 0 and "log.gpkg-wal" in done.stderr and "-wal" in done.stdout, told(done))
    left = [name for name in os.listdir(t.folder) if name.rpartition(".")[2].isdigit()]
    t.check("no temporary stays after joins", not left, str(left))


def cut(t, path):
    short = t.path()
    with open(short, "wb") as file:
        file.write(content(path)[:-5000])
    return short


def boxes(t):
    """The box of any geometry, beside GDAL's."""
    from dig import bounds
    shapes = {"POINT (1 2)": (1, 1, 2, 2), "POINT M (1 2 7)": (1, 1, 2, 2), "POINT ZM (1 2 3 4)": (1, 1, 2, 2),
              "LINESTRING Z (1 2 3, -4 5 6)": (-4, 1, 2, 5), "POLYGON ((0 0, 4 0, 4 3, 0 0),(1 1, 2 1, 1 0.5, 1 1))": (0, 4, 0, 3),
              "GEOMETRYCOLLECTION (POINT (9 9), LINESTRING (0 0, 1 -1))": (0, 9, -1, 9), "MULTIPOINT ((1 1), (2 3))": (1, 2, 1, 3),
              "CIRCULARSTRING (0 0, 1 1, 2 0)": (0, 2, 0, 1), "MULTIPOLYGON Z (((0 0 1, 1 0 1, 1 1 1, 0 0 1)))": (0, 1, 0, 1)}
    wkt = t.path(".csv")
    with open(wkt, "w") as file:
        file.write("id,WKT\n" + "".join(f'{at},"{shape}"\n' for at, shape in enumerate(shapes)))
    path = t.path()
    done = ogr("ogr2ogr", "-f", "GPKG", path, wkt, "-oo", "GEOM_POSSIBLE_NAMES=WKT", "-nlt", "GEOMETRY", "-a_srs", "EPSG:32633")
    file = sqlite3.connect(path)
    table = os.path.basename(wkt)[:-4]
    found = [row[0] for row in file.execute(f'SELECT geom FROM "{table}" ORDER BY fid')] if done.returncode == 0 else []
    for (shape, expected), blob in zip(shapes.items(), found):
        t.check(f"box of {shape}", bounds.box(blob) == expected, str(bounds.box(blob)))
    nan = struct.pack("<d", float("nan"))
    for name, blob in (("point", struct.pack("<2sBBiBI", b"GP", 0, 0x11, 0, 1, 1) + nan * 2), ("line", struct.pack("<2sBBiBII", b"GP", 0, 0x11, 0, 1, 2, 0))):
        t.check(f"box of an empty {name}", bounds.box(blob) is None)
    t.check("boxes of all shapes", len(found) == len(shapes), told(done))
