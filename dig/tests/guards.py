"""What must never pass: each of these once gave a wrong or a current-looking list with status 0, or no words."""
import os
import re
import shutil
import sqlite3
import subprocess
import sys
import xml.dom.minidom

from common import COMMAND, content, ogr, point, rows, run, sha256, told

X, Y = 500100.0, 5600200.0


def tests(t):
    systems(t)
    roles(t)
    outputs(t)
    stamps(t)
    repeated(t)
    hidden(t)
    edge(t)
    groups(t)
    same_verdict(t)
    opening(t)


def systems(t):
    """Degrees, feet, unknown systems: never taken for metres."""
    def assigned(srs, option="-a_srs"):
        path = t.path()
        done = ogr("ogr2ogr", "-f", "GPKG", option, srs, path, t.whole)
        return path if done.returncode == 0 else told(done)
    t.refused("degrees in 3D, by GDAL", assigned("EPSG:4979", "-t_srs"), "4979", "WGS 84", "geographic", "--metres")
    t.refused("degrees in 2D, by GDAL", assigned("EPSG:4326", "-t_srs"), "4326", "geographic")
    t.refused("compound with a geographic part", assigned("EPSG:4326+5773"), "WGS 84 + EGM96 height", "geographic")
    t.refused("feet", assigned("EPSG:2263", "-t_srs"), "2263", "US survey foot")
    t.refused("heights in feet", assigned("EPSG:32633+6360"), "NAVD88 height (ftUS)", "heights in US survey foot")
    t.refused("geocentric", assigned("EPSG:4978", "-t_srs"), "4978", "geocentric")
    t.refused("Pseudo-Mercator", assigned("EPSG:3857", "-t_srs"), "3857", "Pseudo-Mercator")
    done = run(assigned("EPSG:25833+5783"))
    t.check("compound in metres", done.returncode == 0 and "10 dents, 6 new" in done.stdout, told(done))
    t.refused("missing", t.changed(("UPDATE gpkg_geometry_columns SET srs_id = 777",), ("UPDATE gpkg_contents SET srs_id = 777",)), "777", "missing")
    for srid in (-1, 0):
        t.refused(f"undefined {srid}", t.changed((f"UPDATE gpkg_geometry_columns SET srs_id = {srid}",), (f"UPDATE gpkg_contents SET srs_id = {srid}",)),
                  f"reference system {srid}", "undefined")
    t.refused("definition undefined", t.changed(("UPDATE gpkg_spatial_ref_sys SET definition = 'undefined' WHERE srs_id = 32633",)), "32633", "undefined")
    t.refused("definition cut off", t.changed(("UPDATE gpkg_spatial_ref_sys SET definition = substr(definition, 1, 200) WHERE srs_id = 32633",)),
              "32633", "cannot be read")
    two = [("INSERT INTO gpkg_spatial_ref_sys SELECT 'WGS 84 / UTM zone 32N', 32632, organization, 32632, definition, description"
            + (", definition_12_063" if "definition_12_063" in columns(t.whole, "gpkg_spatial_ref_sys") else "")
            + " FROM gpkg_spatial_ref_sys WHERE srs_id = 32633",),
           ("UPDATE gpkg_contents SET srs_id = 32632 WHERE table_name = 'struck_off'",)]
    t.refused("two systems of one table", t.changed(*two), "32632", "32633", "different reference systems")
    two.append(("UPDATE gpkg_geometry_columns SET srs_id = 32632 WHERE table_name = 'struck_off'",))
    t.refused("two systems", t.changed(*two), "struck_off in reference system 32632 (WGS 84 / UTM zone 32N", "different reference systems")
    path = t.changed(("UPDATE gpkg_spatial_ref_sys SET definition = 'undefined' WHERE srs_id = 32633",))
    files = [path + end for end in (".csv", ".svg", ".html")]
    done = run(path, "--metres", "--csv", files[0], "--svg", files[1], "--html", files[2])
    t.check("--metres, and every output says so", done.returncode == 0 and "10 dents, 6 new" in done.stdout and "by --metres, although" in done.stdout
            and all(os.path.exists(file) and b"by --metres, although" in content(file) for file in files), told(done))


def columns(path, table):
    file = sqlite3.connect(path)
    try:
        return [row[1] for row in file.execute(f"PRAGMA table_info({table})")]
    finally:
        file.close()


def roles(t):
    t.refused("struck is dents", t.whole, "table dents is taken for --dents and --struck", options=["--struck", "dents"])
    t.refused("dents is struck", t.whole, "table struck_off is taken for --dents and --struck", options=["--dents", "STRUCK_OFF", "--group", "name"])
    t.refused("pipe is welds", t.whole, "table welds is taken for --welds and --pipe", options=["--pipe", "welds"])
    t.refused("fittings is pipe", t.whole, "--pipe and --fittings", options=["--fittings", "centreline"])
    # a view is a table of its own; that all distances are 0 is seen
    path = t.changed(("DELETE FROM struck_off",), ("INSERT INTO struck_off (geom) SELECT geom FROM dents",))
    done = run(path)
    t.check("struck is a copy of dents", done.returncode == 0 and "every dent lies exactly on a struck-off one" in done.stderr
            and "every dent lies exactly on a struck-off one" in done.stdout, told(done))


def outputs(t):
    """All or none, and no earlier list left looking current."""
    folder = os.path.join(t.folder, "outputs")
    os.mkdir(folder)
    csv, svg = os.path.join(folder, "dig.csv"), os.path.join(folder, "dig.svg")
    path = t.changed()
    first = run(path, "--csv", csv, "--svg", svg)
    t.check("first run", first.returncode == 0 and sorted(os.listdir(folder)) == ["dig.csv", "dig.svg"], told(first))
    earlier = {os.path.basename(file): content(file) for file in (csv, svg)}

    broken = t.changed(("UPDATE dents SET geom = x'4750' WHERE fid = 2",))
    done = run(broken, "--csv", csv, "--svg", svg)
    kept = all(os.path.exists(file + ".earlier") and content(file + ".earlier") == earlier[os.path.basename(file)] for file in (csv, svg))
    t.check("a failed run leaves no list at the path", done.returncode == 1 and not os.path.exists(csv) and not os.path.exists(svg), told(done))
    t.check("the earlier list is kept under another name, and it is said", kept and f"{csv}.earlier" in done.stderr, told(done))

    done = run(path, "--csv", csv, "--svg", os.path.join(folder, "none", "dig.svg"))
    t.check("one output cannot be written: none is new", done.returncode == 1 and done.stdout == "" and not os.path.exists(csv)
            and "No dig list." in done.stderr, told(done))
    run(path, "--csv", csv)
    with open("/dev/full", "w") as full:
        status = subprocess.run([COMMAND, path, "--csv", csv], stdout=full, stderr=subprocess.DEVNULL).returncode
    t.check("the list cannot be printed: no output is new", status == 1 and not os.path.exists(csv))
    run(path, "--csv", csv)
    done = run(path, "--csv", csv, "--tolerance", "soon")
    t.check("a command line at fault", done.returncode == 2 and not os.path.exists(csv) and os.path.exists(csv + ".earlier"), told(done))
    done = run(path, "--csv", csv)
    t.check("a good run after it", done.returncode == 0 and os.path.exists(csv) and not os.path.exists(csv + ".earlier"), told(done))
    same = run(path, "--csv", csv, "--svg", csv)
    t.check("two outputs at one path", same.returncode == 1 and "a file of its own" in same.stderr and not os.path.exists(csv), told(same))
    stranger = t.changed()
    before = content(stranger)
    run(path, "--csv", csv)
    done = run(path, "--gpkg", stranger, "--csv", csv)
    t.check("--gpkg never replaces another file, and no earlier list stays beside it", done.returncode == 1 and content(stranger) == before
            and not os.path.exists(csv) and not os.path.exists(stranger + ".earlier"), told(done))
    for option in ("--csv", "--svg", "--html"):
        done = run(path, option, stranger)
        t.check(f"{option} never replaces an SQLite file", done.returncode == 1 and content(stranger) == before and "left alone" in done.stderr, told(done))
    run(path, "--csv", csv)
    before = content(path)
    done = run(path, "--svg", path, "--csv", csv)
    t.check("an output over the input: no earlier list stays either", done.returncode == 1 and content(path) == before and not os.path.exists(csv), told(done))
    done = run(path, "--csv", t.folder)
    t.check("an output that is a directory", done.returncode == 1 and "no regular file" in done.stderr and os.path.isdir(t.folder), told(done))
    left = [name for name in os.listdir(folder) if re.search(r"\.\d+$", name)]
    t.check("no temporary stays", not left, str(left))


def stamps(t):
    path = t.changed()
    done = run(path, "--csv", path + ".csv", "--svg", path + ".svg", "--tolerance", "0.3")
    name, digest = os.path.basename(path), sha256(path)
    for what, text in [("printed list", done.stdout)] + [
            (end, content(path + end).decode() if os.path.exists(path + end) else "") for end in (".csv", ".svg")]:
        missing = [word for word in (name, digest, "0.3") if word not in text]
        dated = re.search(r"\d{4}-\d\d-\d\d \d\d:\d\d:\d\d[+-]\d\d:\d\d", text)
        t.check(f"stamp: {what}", done.returncode == 0 and not missing and dated and "program" in text and "library" in text, f"{missing} {text[:600]}")
    empty = t.changed(("DELETE FROM dents",))
    run(empty, "--csv", empty + ".csv")
    t.check("stamp: no dents", [row.get("sha256") for row in rows(empty + ".csv")] == [sha256(empty)])


def repeated(t):
    path = t.changed(("INSERT INTO dents (geom, dent_group) SELECT geom, dent_group FROM dents WHERE fid IN (2, 10)",))
    done = run(path, "--csv", path + ".csv")
    t.check("the same dent twice is counted once", "Whole list: 10 dents, 6 new; 3 digs; 2 rows not counted, the same dent again." in done.stdout, told(done))
    t.check("and reported", "11 is 2 (group A)" in done.stderr and "12 is 10 (group D)" in done.stdout, told(done))
    t.check("and in the CSV", {row["dent"]: row.get("same_as") for row in rows(path + ".csv")}.get("11") == "2")
    done = run(t.changed(("INSERT INTO dents (geom, dent_group) SELECT geom, 'B' FROM dents WHERE fid = 2",)))
    t.check("the same geometry in two groups is reported", "2 (group A), 11 (group B)" in done.stderr and "11 dents" in done.stdout, told(done))


def hidden(t):
    """A new dent and a struck-off one at one place in plan, the struck-off one listed later."""
    places = [(X + 6, Y + 1, -5.0), (X + 6, Y + 1, -1.6)]
    path = t.changed(("DELETE FROM dents",), *[("INSERT INTO dents (geom, dent_group) VALUES (?, 'A')", point(*p)) for p in places],
                     ("UPDATE struck_off SET geom = ? WHERE fid = 1", point(*places[1])))
    done = run(path, "--svg", path + ".svg")
    picture = xml.dom.minidom.parse(path + ".svg")
    for group in picture.getElementsByTagName("g"):
        marks = [(at, part.tagName) for at, part in enumerate(node for node in group.childNodes if node.nodeType == 1)
                 if part.getAttribute("fill") in ("#d11f2f", "#1d8a4e") and part.tagName != "text"]
        new = [(at, name) for at, name in marks if list(node for node in group.childNodes if node.nodeType == 1)[at].getAttribute("fill") == "#d11f2f"]
        done_ones = [mark for mark in marks if mark not in new]
        name = group.getAttribute("clip-path")
        t.check(f"new dents are drawn last: {name}", new and done_ones and min(new)[0] > max(done_ones)[0], f"{marks} {told(done)}")
        t.check(f"new dents have another shape: {name}", {shape for _, shape in new}.isdisjoint({shape for _, shape in done_ones}), str(marks))


def edge(t):
    """As many digits as the decision needs."""
    def shown(distance, tolerance):
        path = t.changed(("DELETE FROM struck_off WHERE fid <> 1",), ("UPDATE dents SET geom = ? WHERE fid = 1", point(0.0, 0.0, -1.0)),
                         ("UPDATE struck_off SET geom = ? WHERE fid = 1", point(0.0, 0.0, -1.0 - distance)))
        done = run(path, "--tolerance", repr(tolerance))
        line = next((line.split() for line in done.stdout.splitlines() if re.match(r"\s*1\s+A\s", line)), [])
        number = next((word for word in line[2:] if re.fullmatch(r"\d\.\d{3,}", word)), "none")
        return number, "NEW" in line, done.stdout
    number, new, text = shown(0.2503, 0.25)
    t.check("0.2503 is NEW and reads above 0.25", new and float(number) > 0.25, text)
    number, new, text = shown(0.2496, 0.2499)
    t.check("0.2496 is struck off and reads at most 0.2499", not new and float(number) <= 0.2499, text)
    number, new, text = shown(0.25000000001, 0.25)
    t.check("0.25000000001", new and float(number) > 0.25, text)
    number, new, text = shown(0.0518, 0.25)
    t.check("no more digits than that", number == "0.052" or number == "0.0518" and False, text)
    done = run(t.whole, "--tolerance", "0.2500001")
    t.check("the tolerance with all its digits", "0.2500001 m" in done.stdout, told(done))


def groups(t):
    done = run(t.whole)
    digs = done.stdout.partition("DIGS")[2].partition("NO DIG")[0]
    t.check("a group without a new dent is no dig", "6 new; 3 digs." in done.stdout and not re.search(r"^D\s", digs, re.MULTILINE)
            and re.search(r"^D\s", done.stdout.partition("NO DIG")[2], re.MULTILINE), told(done))
    t.check("the list says which dents set the width", "all dents of the group, struck off or not, to its weld" in done.stdout, told(done))
    done = run(t.changed(("DELETE FROM welds WHERE dent_group = 'D'",)))
    t.check("and needs no weld", done.returncode == 0 and "group D has no weld" in done.stderr, told(done))
    for a, b in ("AC", "AB", "BC"):
        path = t.changed((f"UPDATE welds SET dent_group = CASE dent_group WHEN '{a}' THEN '{b}' ELSE '{a}' END WHERE dent_group IN ('{a}', '{b}')",))
        done = run(path)
        t.check(f"welds of {a} and {b} exchanged", done.returncode == 0 and "! " in done.stdout and all(
            re.search(f"warning: .*{group}", done.stderr) for group in (a, b)) and "exchanged" in done.stderr, told(done))
    path = t.changed(("DELETE FROM dents WHERE dent_group IN ('B', 'D')",), ("DELETE FROM welds WHERE dent_group IN ('B', 'D')",),
                     ("UPDATE welds SET dent_group = CASE dent_group WHEN 'A' THEN 'C' ELSE 'A' END",))
    done = run(path)
    t.check("exchanged, and there are no others", "groups A and C: each is nearer to the other's weld" in done.stderr, told(done))
    path = t.changed(("UPDATE dents SET geom = ? WHERE fid = 6", point(X + 36, Y + 30, -2.5)))
    done = run(path)
    t.check("one width far out", "group C" in done.stderr and "far out of the others" in done.stderr and "far out of the others" in done.stdout, told(done))
    done = run(t.whole)
    t.check("no warning without reason", "warning" not in done.stderr and "WARNINGS" not in done.stdout, told(done))
    done = run(t.changed(("UPDATE dents SET dent_group = 'a' WHERE fid = 1",), ("INSERT INTO welds (geom, dent_group) SELECT geom, 'a' FROM welds WHERE fid = 1",)))
    t.check("groups that differ in case", "differ only in case" in done.stderr, told(done))


def same_verdict(t):
    """With and without --svg."""
    fitting = t.changed(("UPDATE fittings SET geom = x'4750' WHERE fid = 1",))
    with_picture = run(fitting, "--svg", fitting + ".svg")
    for name, done in (("a broken fitting, no picture asked", run(fitting)), ("a broken fitting, with a picture", with_picture)):
        t.check(name, done.returncode == 1 and done.stdout == "" and "fittings, feature 1: refusal 3" in done.stderr, told(done))
    for name, more in (("a wrong --pipe, no picture asked", []), ("a wrong --pipe, with a picture", ["--svg", t.path(".svg")])):
        done = run(t.whole, "--pipe", "tube", *more)
        t.check(name, done.returncode == 1 and done.stdout == "" and "no feature table tube for the pipe" in done.stderr, told(done))
    lineless = t.changed(("UPDATE centreline SET geom = (SELECT geom FROM dents WHERE fid = 1)",))
    t.refused("a --pipe without a line", lineless, "no line in it", options=["--pipe", "centreline"])


def opening(t):
    """Locked, WAL mode, a directory, damaged."""
    path = t.changed()
    writer = sqlite3.connect(path)
    writer.execute("BEGIN EXCLUSIVE")
    done = run(path)
    t.check("a locked file says what to do", done.returncode == 1 and "is locked" in done.stderr and "close it there" in done.stderr, told(done))
    writer.close()
    t.refused("a directory is called one", t.folder, "is a directory")
    empty = t.path()
    open(empty, "w").close()
    t.refused("an empty file", empty, "the file is empty")
    text = t.path()
    with open(text, "w") as file:
        file.write("no database" * 50)
    t.refused("no database", text, "no GeoPackage file")
    cut = t.path()
    with open(cut, "wb") as file:
        file.write(content(t.whole)[:-8192])
    t.refused("a file cut off", cut, "damaged")
    logged(t)
    half_written(t)


def half_written(t):
    """A program that was killed while it wrote: the file is not whole, and its journal is to undo that."""
    path = t.changed(("CREATE TABLE filler (word BLOB)",))
    writer = subprocess.Popen([sys.executable, "-c", "import sqlite3, sys; f = sqlite3.connect(sys.argv[1]); f.execute('PRAGMA cache_size = 2'); "
                               "f.execute('DELETE FROM dents'); f.executemany('INSERT INTO filler VALUES (zeroblob(3000))', [()] * 200); "
                               "print(flush=True); sys.stdin.read()", path], stdin=subprocess.PIPE, stdout=subprocess.PIPE)
    writer.stdout.readline()
    writer.kill()
    writer.communicate()
    before = content(path), content(path + "-journal")
    done = run(path)
    t.check("a file that was half written says what to do", done.returncode == 1 and "-journal is to undo it" in done.stderr and done.stdout == ""
            and (content(path), content(path + "-journal")) == before, told(done))


def logged(t):
    folder = os.path.join(t.folder, "wal")
    os.mkdir(folder)
    path = os.path.join(folder, "tablet.gpkg")
    shutil.copy(t.whole, path)
    file = sqlite3.connect(path)
    file.execute("PRAGMA journal_mode = WAL")
    file.execute("UPDATE dents SET dent_group = 'B' WHERE fid = 1")
    file.commit()
    file.close()
    before = {name: content(os.path.join(folder, name)) for name in os.listdir(folder)}
    done = run(path)
    after = {name: content(os.path.join(folder, name)) for name in os.listdir(folder)}
    t.check("WAL mode: nothing written beside the file", done.returncode == 0 and after == before and list(before) == ["tablet.gpkg"], f"{list(after)} {told(done)}")
    t.check("WAL mode without its -wal is warned about", "tablet.gpkg-wal" in done.stderr and "are missing here" in done.stdout, told(done))

    live = subprocess.Popen([sys.executable, "-c", "import sqlite3, sys; f = sqlite3.connect(sys.argv[1]); f.execute(\"UPDATE dents SET dent_group = 'A' WHERE fid = 1\"); "
                             "f.commit(); print(flush=True); sys.stdin.read()", path], stdin=subprocess.PIPE, stdout=subprocess.PIPE)
    live.stdout.readline()
    before = {name: content(os.path.join(folder, name)) for name in os.listdir(folder)}
    done = run(path)
    after = {name: content(os.path.join(folder, name)) for name in os.listdir(folder)}
    t.check("a log beside the file is read", done.returncode == 0 and re.search(r"^\s*1\s+A\s", done.stdout, re.MULTILINE)
            and "SHA-256 of its -wal" in done.stdout, told(done))
    t.check("and nothing is written", after == before and "tablet.gpkg-wal" in before, f"{list(before)} {list(after)}")
    copy = os.path.join(t.folder, "copied.gpkg")
    shutil.copy(path, copy)
    live.communicate()
    done = run(copy)
    t.check("a copy without its log is warned about", done.returncode == 0 and "copied.gpkg-wal" in done.stderr, told(done))
