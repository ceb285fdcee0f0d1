"""Features of a GeoPackage file."""
import math
import sqlite3
import struct
from collections import namedtuple

from dig import reference
from dig.measure import told
from dig.opening import Opened
from dig.problems import Problems
from viskorrel import Refusal, read

LINE = 2


class Feature(namedtuple("Feature", "table id group blob runs label", defaults=[""])):
    """`runs` are (kind, vertices), as the library read them, without M; `label` is what the crew wrote."""
    __slots__ = ()

    @property
    def name(self):
        """What the list calls it: what the crew wrote, else the id."""
        return self.label or str(self.id)

    @property
    def shape(self):
        """The same for the same geometry, however it is encoded."""
        return tuple((kind, tuple(run)) for kind, run in self.runs)

    @property
    def vertices(self):
        """Those of the longest line: a line of one vertex has none."""
        return [vertex for kind, run in self.runs if kind != LINE or len(run) > 1 for vertex in run]


class GeoPackage:
    def __init__(self, path):
        self.path = path
        self.opened = Opened(path)
        self.file = self.opened.file
        try:
            rows = self.file.execute(
                "SELECT g.table_name, g.column_name, g.srs_id, c.srs_id, g.geometry_type_name, g.z, g.m FROM gpkg_geometry_columns g "
                "LEFT JOIN gpkg_contents c ON c.table_name = g.table_name ORDER BY g.table_name").fetchall()
        except sqlite3.Error as fault:
            raise Problems(f"{path}: no GeoPackage with features ({fault})") from fault
        self.tables = {row[0]: (row[1], row[2]) for row in rows}
        self.kinds = {row[0]: row[4:] for row in rows}
        self.contents = {row[0]: row[3] for row in rows}

    def close(self):
        self.opened.close()

    def find(self, role, asked, names, needed=True):
        """The table of a role: the one asked for, or the first of the names that there is."""
        by_name = {table.lower(): table for table in self.tables}
        for name in [asked] if asked else names:
            if name.lower() in by_name:
                return by_name[name.lower()]
        if not needed and not asked:
            return None
        there = ", ".join(self.tables) or "none"
        wanted = asked or " or ".join(names)
        raise Problems(f"{self.path}: no feature table {wanted} for the {role} (--{role} names one); feature tables: {there}")

    def columns(self, table):
        return self.file.execute(f"PRAGMA table_info({quoted(table)})").fetchall()

    def group_column(self, table, asked, names):
        by_name = {row[1].lower(): row[1] for row in self.columns(table)}
        for name in [asked] if asked else names:
            if name.lower() in by_name:
                return by_name[name.lower()]
        raise Problems(f"{table}: no column {asked or ' or '.join(names)} for the group (--group names one); columns: {', '.join(by_name.values())}")

    def system_row(self, srid):
        """All columns of a reference system, by name."""
        rows = self.file.execute("SELECT * FROM gpkg_spatial_ref_sys WHERE srs_id = ?", (srid,))
        names = [column[0] for column in rows.description]
        return [dict(zip(names, row)) for row in rows]

    def metres(self, tables, trusted):
        """All tables in one reference system, in metres, or a problem; what the outputs say of it."""
        used = [(table, srid) for table in tables for srid in dict.fromkeys((self.tables[table][1], self.contents[table])) if srid is not None]
        columns = ("srs_name", "organization", "organization_coordsys_id", "definition", "definition_12_063")
        systems = {srid: reference.system([[row.get(name) for name in columns] for row in self.system_row(srid)], srid)
                   for srid in dict.fromkeys(srid for _, srid in used)}
        return reference.check(systems, used, trusted)

    def label_column(self, table, asked, needed):
        """The column that names features, or none."""
        names = [row[1] for row in self.columns(table)]
        found = [name for name in names if asked and name.lower() == asked.lower()]
        if asked and needed and not found:
            raise Problems(f"{table}: no column {asked} for the label (--label names one); columns: {', '.join(names)}")
        return found[0] if found else None

    def features(self, table, group=None, label=None):
        """The features of a table by id, each read by the library; and the faults, one line for each. A feature at fault is left out."""
        column, srid = self.tables[table]
        keys = [row[1] for row in self.columns(table) if row[5]]
        if len(keys) != 1:
            raise Problems(f"{table}: no feature id (a primary key of one column)")
        wanted = [quoted(name) if name else "NULL" for name in (keys[0], column, group, label)]
        found, faults = [], []
        rows = self.file.execute(f"SELECT {', '.join(wanted)} FROM {quoted(table)} ORDER BY {quoted(keys[0])}")
        for id, blob, of_group, of_label in rows:
            where, told_before = f"{table}, feature {id}", len(faults)
            if not isinstance(blob, bytes):
                faults.append(f"{where}: " + ("there is no geometry" if blob is None else "the geometry is no blob"))
                continue
            name, called = word(of_group), word(of_label)
            if group and not name:
                faults.append(f"{where}: the group is empty")
            for what, said in (("group", name), ("label", called)):
                if not said.isprintable():
                    faults.append(f"{where}: the {what} {said!r} has a character that cannot be printed")
            try:
                runs = [(kind, [coordinate[:3] for coordinate in run]) for kind, run in read(blob)]
            except Refusal as refused:
                faults.append(f"{where}: {told(refused)}")
                continue
            feature = Feature(table, id, name, blob, runs, called)
            if blob[:2] == b"GP" and struct.unpack_from("<i" if blob[3] & 1 else ">i", blob, 4)[0] != srid:
                faults.append(f"{where}: the blob's SRID is not the table's, {srid}")
            if not feature.vertices:
                faults.append(f"{where}: the geometry is empty")
            elif not all(math.isfinite(number) for _, run in runs for vertex in run for number in vertex):
                faults.append(f"{where}: a coordinate is NaN or infinite")
            if len(faults) == told_before:
                found.append(feature)
        return found, faults


def word(value):
    return "" if value is None else str(value).strip()


def quoted(name):
    return '"' + name.replace('"', '""') + '"'
