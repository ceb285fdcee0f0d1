"""Copies of one GeoPackage file that were changed apart: their tables compared, their rows told apart."""
import hashlib
import os
from dataclasses import dataclass, field

from dig.geopackage import quoted
from dig.opening import Opened
from dig.problems import Problems

ORIGIN = "joined_from"        # the column that names the copy which added a row
RECORD = "viskorrel_join"     # the table of what was joined
DELETED = "deleted"
VOLATILE = {"gpkg_contents", "gpkg_ogr_contents", "gpkg_geometry_columns", "gpkg_extensions", "gpkg_spatial_ref_sys"}


@dataclass
class Table:
    name: str
    key: str
    columns: dict    # declared type, NOT NULL, default, part of the key: by name
    geometry: tuple  # column, type, system, z, m; empty for a table without geometries

    @property
    def values(self):
        """All columns but the id."""
        return [name for name in self.columns if name != self.key]


class Copy:
    """A file that is joined, open for reading. `name` is what the report and the rows call it."""

    def __init__(self, path, name):
        self.path, self.name = path, name
        self.opened = Opened(path)
        self.file = self.opened.file
        contents = self.rows("SELECT table_name, data_type FROM gpkg_contents ORDER BY table_name")
        self.tables, self.fixed = {}, []
        for table, kind in contents:
            if table == RECORD:
                continue
            found = self.table(table) if kind in ("features", "attributes") else None
            if found:
                self.tables[table] = found
            else:
                self.fixed.append(table)

    def rows(self, statement, *values):
        return self.file.execute(statement, values).fetchall()

    def table(self, name):
        """A table whose rows have an id, an INTEGER PRIMARY KEY; None for others, such as views and tiles."""
        kind = self.rows("SELECT type FROM sqlite_master WHERE name = ?", name)
        columns = self.rows(f"PRAGMA table_info({quoted(name)})")
        keys = [row[1] for row in columns if row[5]]
        if kind != [("table",)] or len(keys) != 1 or [row[2].upper() for row in columns if row[5]] != ["INTEGER"]:
            return None
        geometry = self.rows("SELECT column_name, upper(geometry_type_name), srs_id, z, m FROM gpkg_geometry_columns WHERE table_name = ?", name) \
            if self.rows("SELECT 1 FROM sqlite_master WHERE name = 'gpkg_geometry_columns'") else []
        return Table(name, keys[0], {row[1]: (row[2].upper(), row[3], row[4], row[5]) for row in columns}, geometry[0] if geometry else ())

    def of(self, table):
        """The rows of a table by id, each as its values with their types."""
        names = ", ".join(map(quoted, table.values)) or "NULL"
        return {id: tuple((type(value), value) for value in row)
                for id, *row in self.file.execute(f"SELECT {quoted(table.key)}, {names} FROM {quoted(table.name)} ORDER BY 1")}

    def others(self):
        """Plain tables that no GeoPackage table speaks of, and metadata: they are not joined."""
        spoken = {name.lower() for name in list(self.tables) + self.fixed + [RECORD]} | VOLATILE
        return [name for name, statement in self.rows("SELECT name, sql FROM sqlite_master WHERE type = 'table' ORDER BY name")
                if name.lower() not in spoken and not name.lower().startswith(("sqlite_", "rtree_")) and not statement.upper().startswith("CREATE VIRTUAL")]

    def whole(self, name):
        """A table's content, for comparison."""
        if not self.rows("SELECT 1 FROM sqlite_master WHERE name = ?", name):
            return None
        return sorted(repr(row) for row in self.file.execute(f"SELECT * FROM {quoted(name)}"))

    def systems(self):
        return {row[1]: row for row in self.rows("SELECT srs_name, srs_id, organization, organization_coordsys_id, definition FROM gpkg_spatial_ref_sys")}


def opened(paths):
    """The files, named by their own names, or by the paths where two have the same name."""
    bases = [os.path.basename(path) for path in paths]
    names = [path if bases.count(base) > 1 else base for path, base in zip(paths, bases)]
    found = []
    try:
        for path, name in zip(paths, names):
            found.append(Copy(path, name))
    except BaseException:
        close(found)
        raise
    return found


def close(found):
    for copy in found:
        copy.opened.close()


# ---- The same tables ----

def compared(base, copies):
    """Tables that differ in their definitions, in words; and what is kept from the base although a copy has it otherwise."""
    faults, notes = [], []
    for copy in copies:
        faults += [f"{copy.name}: there is no table {name}, which the base has" for name in base.tables if name not in copy.tables]
        faults += [f"{copy.name}: there is a table {name}, which the base has not" for name in copy.tables if name not in base.tables]
        for name in base.tables:
            if name in copy.tables:
                faults += [f"{copy.name}: table {name}: {line}" for line in differences(base.tables[name], copy.tables[name])]
        faults += [f"{copy.name}: table {name} differs from the base's and its rows have no id (INTEGER PRIMARY KEY): it cannot be joined"
                   for name in dict.fromkeys(base.fixed + copy.fixed) if name not in copy.tables and base.whole(name) != copy.whole(name)]
        known, here = base.systems(), copy.systems()
        for srid in {table.geometry[2] for table in base.tables.values() if table.geometry}:
            if srid in here and here[srid] != known.get(srid):
                faults.append(f"{copy.name}: reference system {srid} is defined otherwise than in the base")
        notes += [f"{copy.name}: table {name} differs from the base's and is not joined: the base's stays"
                  for name in dict.fromkeys(base.others() + copy.others()) if base.whole(name) != copy.whole(name)]
    return faults, notes


def differences(base, copy):
    found = [f"no column {name}, which the base has" for name in base.columns if name not in copy.columns]
    found += [f"a column {name}, which the base has not" for name in copy.columns if name not in base.columns]
    for name, (kind, needed, default, key) in base.columns.items():
        if name in copy.columns and copy.columns[name] != (kind, needed, default, key):
            other = copy.columns[name]
            found.append(f"column {name} is {words(*other)}, in the base {words(kind, needed, default, key)}")
    if base.geometry != copy.geometry:
        found.append(f"the geometry is {shown(copy.geometry)}, in the base {shown(base.geometry)}")
    return found


def words(kind, needed, default, key):
    return (kind or "without type") + (" NOT NULL" if needed else "") + (f" DEFAULT {default}" if default is not None else "") + (" PRIMARY KEY" if key else "")


def shown(geometry):
    return "none" if not geometry else f"{geometry[1]} (column {geometry[0]}, system {geometry[2]}, z {geometry[3]}, m {geometry[4]})"


# ---- What became of each row ----

@dataclass
class Row:
    table: str
    id: int           # in the joined file; of a deleted row, in the base
    what: str         # kept, changed, deleted, added
    copies: list      # (name of the copy, id there)
    values: tuple = ()
    note: str = ""


@dataclass
class Plan:
    """What is done to a table."""
    table: Table
    kept: list = field(default_factory=list)
    changed: list = field(default_factory=list)
    deleted: list = field(default_factory=list)
    added: list = field(default_factory=list)

    def rows(self):
        return self.kept + self.changed + self.deleted + self.added


def planned(base, copies, table, preferred):
    """The plan for a table, and its conflicts in words."""
    before = base.of(table)
    now = {copy.name: copy.of(copy.tables[table.name]) if list(copy.tables[table.name].columns) == list(table.columns)
           else reordered(copy, table) for copy in copies}
    plan, conflicts = Plan(table), []
    for id, row in before.items():
        versions = {name: rows.get(id, DELETED) for name, rows in now.items() if rows.get(id, DELETED) != row}
        if not versions:
            plan.kept.append(Row(table.name, id, "kept", [(base.name, id)], row))
            continue
        distinct = set(versions.values())
        chosen = next((name for name in preferred if name in versions or name == base.name), None) if len(distinct) > 1 else next(iter(versions))
        if chosen is None:
            conflicts.append(conflict(table, id, row, versions))
            continue
        note = f"conflict: {chosen} is preferred; " + conflict(table, id, row, versions) if len(distinct) > 1 else ""
        decide(plan, base, id, row, versions, chosen, note)
    add(plan, before, now, [copy.name for copy in copies])
    return plan, conflicts


def reordered(copy, table):
    """A copy's rows with the columns in the order of the base."""
    return copy.of(Table(table.name, table.key, table.columns, table.geometry))


def decide(plan, base, id, row, versions, chosen, note):
    table = plan.table
    if chosen == base.name:
        plan.kept.append(Row(table.name, id, "kept", [(base.name, id)], row, note))
        return
    copies = [(name, id) for name, version in versions.items() if version == versions[chosen]]
    if versions[chosen] == DELETED:
        plan.deleted.append(Row(table.name, id, "deleted", copies, (), note))
    else:
        columns = ", ".join(name for name, old, new in zip(table.values, row, versions[chosen]) if old != new)
        plan.changed.append(Row(table.name, id, "changed", copies, versions[chosen], note or columns))


def add(plan, before, now, order):
    """Rows that copies added, under ids that no file has; the same row of several copies once."""
    table = plan.table
    next_id = max([0, *before, *(id for rows in now.values() for id in rows)]) + 1
    there = {}
    for id, row in before.items():
        there.setdefault(row, id)
    of_row = {}  # by content: the rows that come in
    for name in order:
        seen = {}
        for id, row in now[name].items():
            if id in before:
                continue
            at = seen[row] = seen.get(row, 0) + 1  # the same row twice in one copy stays two rows
            same = of_row.setdefault(row, [])
            if len(same) < at:
                note = f"all columns as row {there[row]} of the base" if row in there else ""
                same.append(Row(table.name, next_id, "added", [], row, note))
                plan.added.append(same[-1])
                next_id += 1
            same[at - 1].copies.append((name, id))


def conflict(table, id, row, versions):
    told = []
    for name, version in versions.items():
        if version == DELETED:
            told.append(f"{name} deleted it")
        else:
            changes = [f"{column} from {brief(old)} to {brief(new)}" for column, old, new in zip(table.values, row, version) if old != new]
            told.append(f"{name} changed {', '.join(changes)}")
    return f"{table.name}, row {id}: " + "; ".join(told)


def brief(value):
    kind, content = value
    if kind is bytes:
        return f"{len(content)} bytes (SHA-256 {hashlib.sha256(content).hexdigest()[:8]})"
    text = "NULL" if content is None else repr(content)
    return text if len(text) <= 40 else text[:39] + "…"


def references(base, copies, plans):
    """Rows that a copy added and that point at another row that it added: that row's id changes, so they are refused."""
    added = {(name, plan.table.name.lower(), id) for plan in plans for row in plan.added for name, id in row.copies}
    faults = []
    for plan in plans:
        for _, _, parent, column, *_ in base.rows(f"PRAGMA foreign_key_list({quoted(plan.table.name)})"):
            at = {name.lower(): at for at, name in enumerate(plan.table.values)}.get(column.lower())
            for row in plan.added + plan.changed:
                for name, id in row.copies:
                    if at is not None and (name, parent.lower(), row.values[at][1]) in added:
                        faults.append(f"{name}: {plan.table.name}, row {id} points with {column} at row {row.values[at][1]} of {parent}, which the copy "
                                      "added and which gets another id: it cannot be joined")
    return faults


def check(faults):
    if faults:
        raise Problems(*faults)
