"""CSV that no spreadsheet executes, layers for QGIS, and the order of the list."""
import json
import os
import re
import sqlite3

import corridors
from common import content, ogr, point, rows, run, sha256, told

X, Y = 500100.0, 5600200.0


def tests(t):
    cells(t)
    layers(t)
    order(t)
    gaps(t)


def cells(t):
    """Text that a spreadsheet would take for a formula."""
    formulas = ["=1+1", "+1+1", "-1+1", "@SUM(A1)", "=cmd|' /C calc'!A0"]
    path = t.changed(*[("UPDATE dents SET dent_group = ? WHERE fid = ?", text, at + 1) for at, text in enumerate(formulas)],
                     *[("INSERT INTO welds (geom, dent_group) SELECT geom, ? FROM welds WHERE fid = 1", text) for text in formulas])
    done = run(path, "--csv", path + ".csv")
    found = rows(path + ".csv") if done.returncode == 0 else []
    every = [cell for row in found for cell in row.values()]
    number = re.compile(r"-?\d+(\.\d+)?(e[+-]?\d+)?")
    t.check("no cell is a formula", found and not [cell for cell in every if cell[:1] in "=+-@\t\r" and cell and not number.fullmatch(cell)], told(done))
    t.check("the words are still there", {"'" + text for text in formulas} <= {row["group"] for row in found})
    t.check("numbers stay numbers", all(float(row["from_z"]) < 0 for row in found if row["dig_width"]))
    plain = run(t.changed(("UPDATE dents SET dent_group = '-7' WHERE fid = 10",), ("UPDATE welds SET dent_group = '-7' WHERE dent_group = 'D'",)), "--csv", path + ".2.csv")
    t.check("a number as a group", plain.returncode == 0 and "-7" in {row["group"] for row in rows(path + ".2.csv")}, told(plain))


def layers(t):
    path = t.changed(("UPDATE dents SET dent_group = 'O''Neil <b>&' WHERE dent_group = 'B'",), ("UPDATE welds SET dent_group = 'O''Neil <b>&' WHERE dent_group = 'B'",))
    out = t.path()
    done = run(path, "--gpkg", out, "--csv", path + ".csv")
    t.check("layers", done.returncode == 0 and os.path.exists(out), told(done))
    info = ogr("ogrinfo", "-al", "-so", out)
    t.check("GDAL reads the layers", info.returncode == 0 and "ERROR" not in info.stderr and "Warning" not in info.stderr
            and re.search(r"dig_lines\n(.*\n)*?Geometry: 3D Line String\nFeature Count: 3\n", info.stdout)
            and re.search(r"dig_dents\n(.*\n)*?Geometry: 3D Point\nFeature Count: 10\n", info.stdout) and 'ID["EPSG",32633]' in info.stdout, told(info))
    lines = features(out, "dig_lines")
    found = {row["id"]: row for row in rows(path + ".csv")}
    by_group = {row["group"]: row for row in found.values() if row["dig_width"]}
    t.check("the lines are those of the list", len(lines) == 3 and all(
        repr(line["properties"]["width"]) == by_group[line["properties"]["dent_group"]]["dig_width"]
        and [repr(n) for end in line["geometry"]["coordinates"] for n in end]
        == [by_group[line["properties"]["dent_group"]][f"{side}_{axis}"] for side in ("from", "to") for axis in "xyz"] for line in lines), str(lines))
    dents = features(out, "dig_dents")
    t.check("the dents have their states", {str(dent["properties"]["dent_id"]): dent["properties"]["state"] for dent in dents}
            == {id: row["state"] for id, row in found.items()}, str(dents))
    file = sqlite3.connect(out)
    stamp = dict(file.execute("SELECT name, value FROM dig_stamp").fetchall())
    t.check("the layers carry the stamp", stamp["sha256"] == sha256(path) and stamp["tolerance"] == "0.25" and stamp["file"] == os.path.basename(path), str(stamp))
    t.check("the layers are whole", file.execute("PRAGMA integrity_check").fetchall() == [("ok",)] and not file.execute("PRAGMA foreign_key_check").fetchall())
    file.close()
    again = run(path, "--gpkg", out)
    t.check("layers again at the same path", again.returncode == 0, told(again))
    flat = t.path()
    done = ogr("ogr2ogr", "-f", "GPKG", "-a_srs", "EPSG:25833+5783", flat, t.whole)
    done = run(flat, "--gpkg", flat + ".dig.gpkg")
    info = ogr("ogrinfo", "-al", "-so", flat + ".dig.gpkg", "dig_dents")
    t.check("the system goes with them", "DHHN92 height" in info.stdout, told(done) + told(info))


def features(path, layer):
    done = ogr("ogr2ogr", "-f", "GeoJSON", "/vsistdout/", path, layer, "-lco", "RFC7946=NO", "-lco", "COORDINATE_PRECISION=15")
    return json.loads(done.stdout)["features"] if done.returncode == 0 else []


def listed(stdout):
    digs = stdout.partition("\nDIGS")[2].partition("\n\n")[0].splitlines()[2:]
    return [line.split()[0] for line in digs]


def order(t):
    """By chainage where there is a centreline, else by group; chainage in every output."""
    names = {"A": "10", "B": "9", "C": "1", "D": "x"}
    statements = [(f"UPDATE {table} SET dent_group = '{new}' WHERE dent_group = '{old}'",) for old, new in names.items() for table in ("dents", "welds")]
    path = t.changed(*statements)
    done = run(path, *[word for form in ("csv", "svg", "html", "gpkg") for word in (f"--{form}", f"{path}.{form}")])
    t.check("by chainage", listed(done.stdout) == ["10", "9", "1"], told(done))
    found = rows(path + ".csv")
    ways = [float(row["chainage"]) for row in found]
    t.check("dents too", ways == sorted(ways) and len(ways) == 10 and abs(ways[0] - 6.2) < 0.01, str(ways))
    t.check("chainage in every output", "chainage m" in done.stdout and b"chainage 38.00 m" in content(path + ".html")
            and [line["properties"]["chainage"] for line in features(path + ".gpkg", "dig_lines")] == [float(way) for way in dict.fromkeys(
                row["dig_chainage"] for row in found if row["dig_width"])] and b"chainage" in content(path + ".svg"))
    without = t.changed(*statements, ("DROP TABLE centreline",), ("DELETE FROM gpkg_geometry_columns WHERE table_name = 'centreline'",),
                        ("DELETE FROM gpkg_contents WHERE table_name = 'centreline'",))
    done = run(without, "--svg", without + ".svg", "--html", without + ".html", "--csv", without + ".csv")
    t.check("by group, numbers as numbers", listed(done.stdout) == ["1", "9", "10"] and "chainage" not in done.stdout
            and {row["chainage"] for row in rows(without + ".csv")} == {""}, told(done))
    # the runs of the centreline in another order in the file
    turned = t.changed(*statements, ("UPDATE centreline SET fid = 3 WHERE fid = 1",), ("UPDATE centreline SET fid = 1 WHERE fid = 2",))
    other = run(turned)
    t.check("runs of the centreline in any order", listed(other.stdout) == ["10", "9", "1"] and "warning" not in other.stderr, told(other))
    # the place that is nearest in 3D, not in plan: a pipe that passes above itself
    loop = t.changed(("DELETE FROM centreline",), ("INSERT INTO centreline (geom) VALUES (?)", crossing()),
                     ("UPDATE dents SET geom = ? WHERE fid = 10", point(X + 50, Y, -19.5)))
    done = run(loop, "--csv", loop + ".csv")
    way = {row["id"]: float(row["chainage"]) for row in rows(loop + ".csv")}["10"]
    t.check("nearest in 3D", abs(way - 250) < 1e-6, f"{way}")


def crossing():
    import corridors
    return corridors.corridor.line([(X, Y, -2.0), (X + 100, Y, -2.0), (X + 100, Y + 50, -20.0), (X + 50, Y + 50, -20.0), (X + 50, Y - 50, -20.0)])


def gaps(t):
    path = t.changed(("DELETE FROM centreline",), *[("INSERT INTO centreline (geom) VALUES (?)", corridors.corridor.line(run_)) for run_ in (
        [(X, Y, -2.0), (X + 20, Y, -2.0)], [(X + 30, Y, -2.0), (X + 60, Y, -2.0)])])
    done = run(path)
    t.check("a centreline with a gap", done.returncode == 0 and "do not follow each other (1 gaps, the widest 10.00 m)" in done.stderr, told(done))
    far = t.changed(("UPDATE dents SET geom = ? WHERE fid = 10", point(X + 50, Y + 400, -2.0)))
    done = run(far)
    t.check("a dent far from the centreline", "more than 25 m from the centreline, 10 the farthest" in done.stderr, told(done))
