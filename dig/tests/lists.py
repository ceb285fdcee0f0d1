"""The demo's list, blobs and files that give none, and many pairs against the same measures by Python."""
import math
import os
import random
import sqlite3
import struct
import xml.dom.minidom

from common import HERE, body, content, point, rows, run, told


def put(at, byte):
    return lambda blob: blob[:at] + bytes([byte]) + blob[at + 1:]


def tests(t):
    with open(os.path.join(HERE, "expected.txt")) as file:
        expected = file.read()
    demo(t, expected)
    refused_blobs(t)
    other_faults(t)
    same_list(t, expected)
    many_pairs(t)


def demo(t, expected):
    t.check("demo", body(t.demo.stdout) == expected, told(t.demo))
    file = sqlite3.connect(t.whole)
    t.check("application id", file.execute("PRAGMA application_id").fetchone()[0] == 0x47504B47)
    t.check("integrity", file.execute("PRAGMA integrity_check").fetchone()[0] == "ok" and not file.execute("PRAGMA foreign_key_check").fetchall())
    file.close()
    folder = os.path.dirname(t.whole)
    t.check("picture", xml.dom.minidom.parse(os.path.join(folder, "dig.svg")).documentElement.tagName == "svg")
    t.check("csv", len(rows(os.path.join(folder, "dig.csv"))) == 10)
    t.check("demo again", body(run("demo", folder).stdout) == expected)


def refused_blobs(t):
    def damaged(table, id, name, change, words):
        blob = sqlite3.connect(t.whole).execute(f"SELECT geom FROM {table} WHERE fid = ?", (id,)).fetchone()[0]
        t.no_list(name, t.changed((f"UPDATE {table} SET geom = ? WHERE fid = ?", change(blob), id)), f"{table}, feature {id}: {words}")
    damaged("dents", 4, "version", put(2, 1), "refusal 4: GeoPackage header: the version is not 0")
    damaged("dents", 4, "byte order", put(8, 7), "refusal 10: a byte order is above 1")
    damaged("struck_off", 2, "unknown kind", put(9, 0xF2), "refusal 11: a geometry has an unknown kind; if it is a curve, "
            "ogr2ogr -nlt CONVERT_TO_LINEAR -nlt LINESTRING makes lines of it (of a face: -nlt POLYGON)")
    damaged("struck_off", 6, "short header", lambda blob: blob[:5], 'refusal 3: the blob starts with "GP" and has under 8 bytes')
    damaged("welds", 3, "cut off", lambda blob: blob[:-1],
            "refusal 9: a geometry's header, an SRID, a count or a run of coordinates is longer than the bytes left")
    damaged("dents", 10, "no Z", lambda blob: blob[:8] + struct.pack("<BI2d", 1, 1, 1, 2), "refusal 13: operations on two blobs: the type at the top has no Z; "
            "ogr2ogr -zfield COLUMN takes heights from a column")
    damaged("fittings", 1, "fitting", put(3, 0xC1), "refusal 6: GeoPackage header: a reserved bit is set")
    damaged("dents", 3, "NaN", lambda blob: point(math.nan, 0, 0), "a coordinate is NaN or infinite")
    damaged("struck_off", 1, "empty", lambda blob: blob[:8] + struct.pack("<BII", 1, 1004, 0), "the geometry is empty")
    damaged("struck_off", 1, "SRID", lambda blob: point(1, 2, 3, 4326), "the blob's SRID is not the table's, 32633")
    damaged("welds", 2, "no geometry", lambda blob: None, "there is no geometry")
    damaged("welds", 2, "text", lambda blob: "POINT Z (1 2 3)", "the geometry is no blob")
    t.no_list("two at once", t.changed(("UPDATE dents SET geom = x'4750' WHERE fid IN (2, 7)",)), *[
        f'dents, feature {id}: refusal 3: the blob starts with "GP" and has under 8 bytes' for id in (2, 7)])
    t.no_list("overflow", t.changed(("UPDATE dents SET geom = ? WHERE fid = 5", point(1e300, 0, 0))),
              "dents, feature 5 with struck_off, feature 1: the distance is inf")


def other_faults(t):
    t.no_list("no weld", t.changed(("DELETE FROM welds WHERE dent_group = 'C'",)), "group C: there are dents and no weld")
    t.no_list("no group", t.changed(("UPDATE dents SET dent_group = NULL WHERE fid = 1",)), "dents, feature 1: the group is empty")
    t.no_list("group not printable", t.changed(("UPDATE dents SET dent_group = 'A' || char(7) || 'B' WHERE fid = 1",)),
              "dents, feature 1: the group 'A\\x07B' has a character that cannot be printed")
    path = t.changed()
    t.no_list("no table", path, f"{path}: no feature table pits for the dents (--dents names one); "
              "feature tables: centreline, dents, fittings, struck_off, welds", options=["--dents", "pits"])
    t.no_list("no file", os.path.join(t.folder, "none.gpkg"), f"{t.folder}/none.gpkg: no such file")
    t.check("tolerance below 0", run(t.whole, "--tolerance", "-1").returncode == 2)
    t.check("tolerance NaN", run(t.whole, "--tolerance", "nan").returncode == 2)
    before = content(t.whole)
    for option in ("--csv", "--svg", "--html", "--gpkg"):
        t.check(f"never over the file: {option}", run(t.whole, option, t.whole).returncode == 1 and content(t.whole) == before)


def same_list(t, expected):
    """The same list from other blobs and other names."""
    def other(blob):
        x, y, z = struct.unpack_from("<3d", blob, 13)
        return struct.pack(">2sBBi6d", b"GP", 0, 4, 32633, x, x, y, y, z, z) + struct.pack(">BI3d", 0, 1001, x, y, z)
    found = sqlite3.connect(t.whole).execute("SELECT fid, geom FROM dents").fetchall()
    done = run(t.changed(*[("UPDATE dents SET geom = ? WHERE fid = ?", other(blob), id) for id, blob in found]))
    t.check("big-endian, envelope", body(done.stdout) == expected, told(done))
    done = run(t.changed(("INSERT INTO struck_off (geom) SELECT geom FROM struck_off",)))
    t.check("a tie: the first id", expected in done.stdout and "more than once" in done.stderr, told(done))
    done = run(t.changed(("ALTER TABLE dents RENAME TO pits",), ("UPDATE gpkg_contents SET table_name = 'pits' WHERE table_name = 'dents'",),
                         ("UPDATE gpkg_geometry_columns SET table_name = 'pits' WHERE table_name = 'dents'",)), "--dents", "pits")
    t.check("names", body(done.stdout) == expected, told(done))
    none = run(t.changed(("DELETE FROM struck_off",)))
    t.check("nothing struck off", none.returncode == 0 and "Whole list: 10 dents, 10 new; 4 digs." in none.stdout
            and "there are no struck-off dents" in none.stderr, told(none))


def many_pairs(t):
    random.seed(1)
    places = [[tuple(random.uniform(-50, 50) for _ in range(3)) for _ in range(400)] for _ in range(2)]
    path = t.changed(("DELETE FROM dents",), ("DELETE FROM struck_off",),
                     *[("INSERT INTO dents (fid, geom, dent_group) VALUES (?, ?, ?)", n, point(*p), "ABCD"[n % 4]) for n, p in enumerate(places[0])],
                     *[("INSERT INTO struck_off (fid, geom) VALUES (?, ?)", n, point(*p)) for n, p in enumerate(places[1])])
    done = run(path, "--csv", path + ".csv", "--tolerance", "5")
    found = {int(row["id"]): row for row in rows(path + ".csv")}
    right = len(found) == 400
    for n, (x, y, z) in enumerate(places[0]):
        row = found[n]
        least, at = min((math.sqrt((x - a) ** 2 + (y - b) ** 2 + (z - c) ** 2), k) for k, (a, b, c) in enumerate(places[1]))
        right = right and (int(row["nearest_id"]), float(row["distance"])) == (at, least)
        right = right and row["state"] == ("struck off" if least <= 5 else "NEW")
    t.check("160,000 pairs", right, told(done))
