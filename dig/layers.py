"""The dig list as a GeoPackage file: dig lines and dents as layers."""
import os
import sqlite3
import struct

from dig import corridor
from dig.measure import line
from dig.opening import quoted

IDENTIFIER = "viskorrel dig list"
LINES, DENTS, STAMP = "dig_lines", "dig_dents", "dig_stamp"


def is_ours(path):
    """Whether a file is such a list: others are never replaced."""
    try:
        file = sqlite3.connect(f"file:{quoted(os.path.abspath(path))}?mode=ro", uri=True)
        try:
            return file.execute("SELECT count(*) FROM gpkg_contents WHERE table_name = ? AND description = ?", (STAMP, IDENTIFIER)).fetchone()[0] > 0
        finally:
            file.close()
    except sqlite3.Error:
        return False


def blob(srid, content):
    """A GeoPackage blob; content that has a header already keeps it."""
    return content if content[:2] == b"GP" else struct.pack("<2sBBi", b"GP", 0, 1, srid) + content


def write(path, made):
    listed = made.list
    srid = made.systems[0]["srs_id"] if made.systems else -1
    file = sqlite3.connect(path)
    try:
        corridor.empty(file, systems(made.systems))
        kind, *axes = made.kind
        passages = [("hour_of_passage", "REAL"), ("fix_id", "INTEGER"), ("fix_distance", "REAL")] if listed.passages else []
        corridor.layer(file, LINES, "LINESTRING", srid, IDENTIFIER, [("dent_group", "TEXT"), ("chainage", "REAL"), ("width", "REAL"), ("dents", "INTEGER"),
                                                                     ("new_dents", "INTEGER"), *passages, ("warnings", "TEXT")],
                       [(blob(srid, line([dig.start, dig.end])), [dig.name, dig.chainage, dig.width, dig.count, dig.new, *passage(dig), "; ".join(dig.warnings)],
                         [dig.start, dig.end]) for dig in listed.digs])
        corridor.layer(file, DENTS, kind, srid, IDENTIFIER, [
            ("dent", "TEXT"), ("dent_id", "INTEGER"), ("dent_group", "TEXT"), ("chainage", "REAL"), ("state", "TEXT"), ("nearest_struck_off", "TEXT"),
            ("distance", "REAL"), ("same_as", "TEXT"), ("warnings", "TEXT")],
            [(blob(srid, dent.feature.blob), [
                dent.feature.name, dent.feature.id, dent.feature.group, dent.chainage, dent.state, dent.nearest.name if dent.nearest else None,
                dent.distance, dent.same_as.name if dent.same_as else None, "; ".join(dent.warnings)], dent.feature.vertices)
             for dent in listed.dents], axes)
        stamp(file, listed)
        file.commit()
    finally:
        file.close()


def passage(dig):
    return [dig.passage.hour, dig.passage.fix.id, dig.passage.distance] if dig.passage else []


def systems(rows):
    """As the source has them; of two definitions the one that says something."""
    columns = ("srs_name", "srs_id", "organization", "organization_coordsys_id", "definition", "description", "definition_12_063")
    return [tuple(row.get(name) for name in columns) for row in rows]


def stamp(file, listed):
    rows = listed.stamp.columns() + [("warning", line) for line in listed.warnings]
    file.execute(f"CREATE TABLE {STAMP} (fid INTEGER PRIMARY KEY AUTOINCREMENT NOT NULL, name TEXT, value TEXT)")
    file.execute("INSERT INTO gpkg_contents (table_name, data_type, identifier, description) VALUES (?, 'attributes', ?, ?)", (STAMP, STAMP, IDENTIFIER))
    file.executemany(f"INSERT INTO {STAMP} (name, value) VALUES (?, ?)", rows)
