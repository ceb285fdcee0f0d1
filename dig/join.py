"""Joins copies of one GeoPackage file that were changed apart into a new file."""
import argparse
import datetime
import os
import sqlite3
import sys

from dig import bounds, copies, listing
from dig.copies import ORIGIN, RECORD
from dig.geopackage import quoted
from dig.outputs import Outputs
from dig.problems import Problems
from viskorrel import __version__

HELP = """\
Joins copies of a GeoPackage file that were changed apart into a new file; no input is touched.

Rows of the base that no copy changed stay. Rows that a copy added come in under new ids, with the copy's name in the column joined_from; the
same row added in several copies comes in once. What one copy changed or deleted, or several in the same way, is done. A row that copies
changed differently, or that one changed and another deleted, is a conflict: it is named, and there is no output unless --prefer decides.

Files are joined here, row by row; two geometries are joined into one by viskorrel.join in Python, Viskorrel_Join in SQLite, viskorrel_join in C.
"""
END = "Status 0: the joined file and its report were written. Status 1: there are errors or conflicts, on stderr, and no output is new."


def parser():
    options = argparse.ArgumentParser(prog="viskorrel join", description=HELP, epilog=END, formatter_class=argparse.RawDescriptionHelpFormatter,
                                      allow_abbrev=False, usage="./viskorrel join OUT.gpkg --base FILE.gpkg COPY.gpkg ... [options]")
    options.add_argument("out", metavar="OUT.gpkg", help="the new file; it must not be there yet")
    options.add_argument("copies", metavar="COPY.gpkg", nargs="+", help="copies of the base, changed apart")
    options.add_argument("--base", metavar="FILE.gpkg", required=True, help="the file that all copies were made of")
    options.add_argument("--prefer", metavar="FILE", action="append", default=[],
                         help="in a conflict, what this copy (or the base) has is taken; may be given several times, the first that took part decides")
    options.add_argument("--csv", metavar="FILE", help="the report as CSV, default: OUT-join.csv")
    return options


def command(words):
    asked = parser().parse_args(words)
    paths = [asked.base, *asked.copies]
    if os.path.lexists(asked.out):
        raise Problems(f"{asked.out} is there: it is left alone")
    report = asked.csv or (asked.out[:-5] if asked.out.lower().endswith(".gpkg") else asked.out) + "-join.csv"
    for at, path in enumerate(paths):
        if any(os.path.exists(path) and os.path.exists(other) and os.path.samefile(path, other) for other in paths[:at]):
            raise Problems(f"{path} is given twice")
    with Outputs([asked.out, report], paths) as outputs:
        files = copies.opened(paths)
        try:
            plans, notes = plan(files, [preferred(files, name) for name in asked.prefer])
            made = Record(files)
            outputs.add(asked.out, lambda path: write(path, files[0], plans, made))
            for file in files:
                file.opened.unchanged()
        finally:
            copies.close(files)
        outputs.text(report, table(plans, made))
        outputs.publish()
        for line in notes:
            print(f"warning: {line}", file=sys.stderr)
        sys.stdout.write(text(asked.out, plans, made, notes))
        sys.stdout.flush()
    for path in outputs.new:
        print(f"Written: {path}", file=sys.stderr)


def preferred(files, name):
    found = [file.name for file in files if name in (file.name, file.path, os.path.basename(file.path))
             or os.path.exists(name) and os.path.samefile(name, file.path)]
    if len(found) != 1:
        raise Problems(f"--prefer {name}: " + ("none" if not found else "more than one") + " of the files; they are "
                       + ", ".join(file.name for file in files))
    return found[0]


def plan(files, prefer):
    base, *others = files
    faults, notes = copies.compared(base, others)
    copies.check(faults)
    plans, conflicts = [], []
    for table in base.tables.values():
        planned, found = copies.planned(base, others, table, prefer)
        plans.append(planned)
        conflicts += found
    copies.check(copies.references(base, others, plans))
    if conflicts:
        raise Problems(*[f"conflict: {line}" for line in conflicts], "--prefer FILE decides conflicts for what that file has")
    return plans, [line for file in files for line in file.opened.warnings] + notes


class Record:
    """What was joined, when and by what: in the report, and in the joined file."""

    def __init__(self, files):
        self.made = datetime.datetime.now().astimezone().isoformat(" ", "seconds")
        self.program = __version__
        self.files = [("base" if at == 0 else "copy", file.name, file.opened.sha256 + (f"+{file.opened.log_sha256}" if file.opened.log_sha256 else ""))
                      for at, file in enumerate(files)]


# ---- The joined file ----

def write(path, base, plans, made):
    file = sqlite3.connect(path, isolation_level=None)
    try:
        base.file.backup(file)
        file.execute("PRAGMA journal_mode = DELETE")
        bounds.functions(file)
        file.execute("BEGIN")
        for planned in plans:
            apply(file, planned)
            indexes(file, planned)
        record(file, made)
        file.execute("COMMIT")
        found = file.execute("PRAGMA integrity_check").fetchall()
        if found != [("ok",)]:
            raise Problems("the joined file is not whole: " + "; ".join(str(row[0]) for row in found))
        torn = file.execute("PRAGMA foreign_key_check").fetchall()
        if torn:
            raise Problems(*[f"the joined file has a row that points at none: {table}, row {row}, to {parent}" for table, row, parent, _ in torn])
        counted(file, plans)
    finally:
        file.close()


def apply(file, planned):
    table, name = planned.table, quoted(planned.table.name)
    columns = list(table.values)
    if planned.added and ORIGIN not in columns:
        file.execute(f"ALTER TABLE {name} ADD COLUMN {ORIGIN} TEXT")
        columns.append(ORIGIN)
    key = quoted(table.key)
    try:
        file.executemany(f"DELETE FROM {name} WHERE {key} = ?", [(row.id,) for row in planned.deleted])
        if planned.changed:
            settings = ", ".join(f"{quoted(column)} = ?" for column in table.values)
            file.executemany(f"UPDATE {name} SET {settings} WHERE {key} = ?",
                             [[content for _, content in row.values] + [row.id] for row in planned.changed])
        for row in planned.added:
            values = dict(zip(table.values, (content for _, content in row.values)))
            values[ORIGIN] = ", ".join(copy for copy, _ in row.copies)
            file.execute(f"INSERT INTO {name} ({key}, {', '.join(map(quoted, columns))}) VALUES (?{', ?' * len(columns)})",
                         [row.id, *(values[column] for column in columns)])
    except sqlite3.IntegrityError as fault:
        raise Problems(f"table {table.name}: rows of the copies do not go together: {fault}") from fault


def indexes(file, planned):
    """Spatial index, extent, count and time of change, as the rows are now."""
    table = planned.table
    name = quoted(table.name)
    if planned.changed or planned.deleted or planned.added:
        file.execute("UPDATE gpkg_contents SET last_change = strftime('%Y-%m-%dT%H:%M:%fZ','now') WHERE table_name = ?", (table.name,))
    if table.geometry:
        geometry = quoted(table.geometry[0])
        box = f"ST_MinX({geometry}), ST_MaxX({geometry}), ST_MinY({geometry}), ST_MaxY({geometry})"
        there = f"{geometry} NOTNULL AND NOT ST_IsEmpty({geometry})"
        index = f"rtree_{table.name}_{table.geometry[0]}"
        if file.execute("SELECT 1 FROM sqlite_master WHERE lower(name) = lower(?)", (index,)).fetchone():
            file.execute(f"DELETE FROM {quoted(index)}")
            file.execute(f"INSERT INTO {quoted(index)} SELECT {quoted(table.key)}, {box} FROM {name} WHERE {there}")
        extent = file.execute(f"SELECT min(ST_MinX({geometry})), min(ST_MinY({geometry})), max(ST_MaxX({geometry})), max(ST_MaxY({geometry})) "
                              f"FROM {name} WHERE {there}").fetchone()
        file.execute("UPDATE gpkg_contents SET min_x = ?, min_y = ?, max_x = ?, max_y = ? WHERE table_name = ?", (*extent, table.name))
    if file.execute("SELECT 1 FROM sqlite_master WHERE name = 'gpkg_ogr_contents'").fetchone():
        file.execute(f"UPDATE gpkg_ogr_contents SET feature_count = (SELECT count(*) FROM {name}) WHERE lower(table_name) = lower(?)", (table.name,))


def record(file, made):
    file.execute(f"DROP TABLE IF EXISTS {RECORD}")
    file.execute("DELETE FROM gpkg_contents WHERE table_name = ?", (RECORD,))
    file.execute(f"CREATE TABLE {RECORD} (fid INTEGER PRIMARY KEY AUTOINCREMENT NOT NULL, role TEXT, file TEXT, sha256 TEXT, made TEXT, program TEXT)")
    file.executemany(f"INSERT INTO {RECORD} (role, file, sha256, made, program) VALUES (?, ?, ?, ?, ?)",
                     [(*one, made.made, made.program) for one in made.files])
    file.execute("INSERT INTO gpkg_contents (table_name, data_type, identifier, description) VALUES (?, 'attributes', ?, 'files that viskorrel joined')",
                 (RECORD, RECORD))


def counted(file, plans):
    """Nothing got lost on the way: each table has as many rows as the plan."""
    for planned in plans:
        there = file.execute(f"SELECT count(*) FROM {quoted(planned.table.name)}").fetchone()[0]
        if there != len(planned.kept) + len(planned.changed) + len(planned.added):
            raise Problems(f"table {planned.table.name}: {there} rows were written, not those that were planned")


# ---- The report ----

def text(out, plans, made, notes):
    lines = [f"JOINED into {out}"] + [f"{role:<8} {name}  SHA-256 {digest}" for role, name, digest in made.files]
    lines += [f"{'made':<8} {made.made}", f"{'program':<8} viskorrel {made.program}"]
    if notes:
        lines += ["", "WARNINGS"] + [f"! {line}" for line in notes]
    lines += ["", "TABLES"]
    lines += listing.aligned(["table", "kept", "changed", "deleted", "added", "added in several copies"], "<>>>>>", [
        [planned.table.name, len(planned.kept), len(planned.changed), len(planned.deleted), len(planned.added),
         sum(len(row.copies) > 1 for row in planned.added)] for planned in plans])
    rows = [row for planned in plans for row in planned.rows() if row.what != "kept" or row.note]
    if rows:
        lines += ["", "ROWS"] + listing.aligned(["table", "id", "what", "from", "note"], "<><<<", [
            [row.table, row.id, row.what, ", ".join(f"{name} ({id})" for name, id in row.copies), note(row)] for row in rows])
    total = {what: sum(len(getattr(planned, what)) for planned in plans) for what in ("kept", "changed", "deleted", "added")}
    lines += ["", "Whole join: " + ", ".join(f"{number} {what}" for what, number in total.items()) + "."]
    return "\n".join(lines) + "\n"


def note(row):
    same = "the same row in several copies, in once" if row.what == "added" and len(row.copies) > 1 else ""
    return "; ".join(part for part in (same, row.note) if part)


def table(plans, made):
    """The report as CSV: each row of the joined file, and each that was deleted, with where it came from."""
    rows = [["table", "id", "what", "from", "id_there", "note", "made", "program"]]
    rows += [["", "", role, name, "", f"SHA-256 {digest}", made.made, made.program] for role, name, digest in made.files]
    for planned in plans:
        for row in planned.rows():
            for name, id in row.copies:
                rows.append([row.table, row.id, row.what, name, id, note(row), made.made, made.program])
    return listing.rows_to_csv(rows)
