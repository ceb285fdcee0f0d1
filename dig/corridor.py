"""A small corridor, made up: 60 m of pipe with fittings, dents, struck-off dents and welds."""
import math
import os
import sqlite3
import struct

SRID = 32633
RADIUS = 0.25
APPLICATION = 0x47504B47  # "GPKG"
IDENTIFIER = "viskorrel demo"

# two runs of the centreline; the second starts where the first ends
RUNS = [
    [(0, 0, -1.8), (12, 1.5, -1.9), (24, 1.5, -2.6), (32, 4, -2.9)],
    [(32, 4, -2.9), (44, 9, -2.4), (60, 9.5, -1.7)],
]
ORIGIN = (500100.0, 5600200.0, 0.0)

# (chainage, clock degrees from the top) of dents by group, of struck-off dents and of welds by group
DENTS = [
    ("A", 6.2, 20), ("A", 6.9, 75), ("A", 7.6, 350),
    ("B", 18.4, 180), ("B", 19.1, 200),
    ("C", 36.3, 10), ("C", 37.2, 130), ("C", 38.0, 265), ("C", 38.4, 300),
    ("D", 52.5, 90),
]
STRUCK = [(6.25, 24), (7.55, 340), (18.42, 176), (25.0, 0), (37.9, 80), (52.4, 95)]
WELDS = [("A", 9.0), ("B", 17.0), ("C", 40.0), ("D", 54.1)]
FITTINGS = [("valve", 12.2, 0.9), ("tee", 29.0, 0.7), ("flange", 47.5, 0.6)]

PROJECTED = (
    'PROJCS["WGS 84 / UTM zone 33N",GEOGCS["WGS 84",DATUM["WGS_1984",SPHEROID["WGS 84",6378137,298.257223563]],PRIMEM["Greenwich",0],'
    'UNIT["degree",0.0174532925199433]],PROJECTION["Transverse_Mercator"],PARAMETER["latitude_of_origin",0],PARAMETER["central_meridian",15],'
    'PARAMETER["scale_factor",0.9996],PARAMETER["false_easting",500000],PARAMETER["false_northing",0],UNIT["metre",1]]')
GEOGRAPHIC = (
    'GEOGCS["WGS 84",DATUM["WGS_1984",SPHEROID["WGS 84",6378137,298.257223563]],PRIMEM["Greenwich",0],UNIT["degree",0.0174532925199433]]')

SCHEMA = """
CREATE TABLE gpkg_spatial_ref_sys (srs_name TEXT NOT NULL, srs_id INTEGER PRIMARY KEY, organization TEXT NOT NULL,
  organization_coordsys_id INTEGER NOT NULL, definition TEXT NOT NULL, description TEXT, definition_12_063 TEXT NOT NULL DEFAULT 'undefined');
CREATE TABLE gpkg_contents (table_name TEXT NOT NULL PRIMARY KEY, data_type TEXT NOT NULL, identifier TEXT UNIQUE,
  description TEXT DEFAULT '', last_change DATETIME NOT NULL DEFAULT (strftime('%Y-%m-%dT%H:%M:%fZ','now')),
  min_x DOUBLE, min_y DOUBLE, max_x DOUBLE, max_y DOUBLE, srs_id INTEGER,
  CONSTRAINT fk_gc_r_srs_id FOREIGN KEY (srs_id) REFERENCES gpkg_spatial_ref_sys(srs_id));
CREATE TABLE gpkg_geometry_columns (table_name TEXT NOT NULL, column_name TEXT NOT NULL, geometry_type_name TEXT NOT NULL,
  srs_id INTEGER NOT NULL, z TINYINT NOT NULL, m TINYINT NOT NULL, CONSTRAINT pk_geom_cols PRIMARY KEY (table_name, column_name),
  CONSTRAINT uk_gc_table_name UNIQUE (table_name),
  CONSTRAINT fk_gc_tn FOREIGN KEY (table_name) REFERENCES gpkg_contents(table_name),
  CONSTRAINT fk_gc_srs FOREIGN KEY (srs_id) REFERENCES gpkg_spatial_ref_sys (srs_id));
CREATE TABLE gpkg_extensions (table_name TEXT, column_name TEXT, extension_name TEXT NOT NULL, definition TEXT NOT NULL, scope TEXT NOT NULL,
  CONSTRAINT ge_tce UNIQUE (table_name, column_name, extension_name));
INSERT INTO gpkg_extensions VALUES ('gpkg_spatial_ref_sys', 'definition_12_063', 'gpkg_crs_wkt', 'http://www.geopackage.org/spec120/#extension_crs_wkt',
  'read-write');
"""


def along(chainage):
    """The centreline's point at a chainage in plan, and the unit vector along it."""
    walked = 0.0
    pieces = [piece for run in RUNS for piece in zip(run, run[1:])]
    for a, b in pieces:
        length = math.hypot(b[0] - a[0], b[1] - a[1])
        if walked + length >= chainage:
            break
        walked += length
    part = (chainage - walked) / length
    step = [q - p for p, q in zip(a, b)]
    whole = math.sqrt(sum(s * s for s in step))
    return [p + part * s for p, s in zip(a, step)], [s / whole for s in step]


def skin(chainage, clock, radius=RADIUS):
    """A point on the pipe's skin."""
    (x, y, z), (dx, dy, dz) = along(chainage)
    flat = math.hypot(dx, dy)
    side = (dy / flat, -dx / flat, 0.0)
    up = (-dz * dx / flat, -dz * dy / flat, flat)
    s, c = math.sin(math.radians(clock)), math.cos(math.radians(clock))
    return placed([p + radius * (s * a + c * b) for p, a, b in zip((x, y, z), side, up)])


def placed(point):
    """In the file's coordinates, to the millimetre."""
    return tuple(round(p + o, 3) for p, o in zip(point, ORIGIN))


def coordinates(points):
    return struct.pack("<I", len(points)) + b"".join(struct.pack("<3d", *point) for point in points)


def geometry(kind, content):
    return struct.pack("<2sBBi", b"GP", 0, 1, SRID) + struct.pack("<BI", 1, kind) + content


def point(place):
    return geometry(1001, struct.pack("<3d", *place))


def line(points):
    return geometry(1002, coordinates(points))


def face(ring):
    return geometry(1003, struct.pack("<I", 1) + coordinates(ring))


def fitting(chainage, size):
    """Two faces through the pipe's axis, one lying and one upright."""
    rings = []
    for clock in (90, 0):
        corners = [skin(chainage - size / 2, clock, size / 2), skin(chainage + size / 2, clock, size / 2),
                   skin(chainage + size / 2, clock + 180, size / 2), skin(chainage - size / 2, clock + 180, size / 2)]
        rings.append(corners + corners[:1])
    return rings


def ring(chainage):
    """A weld: a line around the pipe."""
    around = [skin(chainage, 45 * step) for step in range(8)]
    return around + around[:1]


def make(path):
    """The file, whole or not at all."""
    layers = [
        ("centreline", "LINESTRING", "name", [(line(run), f"run {at + 1}", run) for at, run in
                                               enumerate([placed(p) for p in run] for run in RUNS)]),
        ("fittings", "POLYGON", "name", [(face(corners), name, corners) for name, at, size in FITTINGS for corners in fitting(at, size)]),
        ("dents", "POINT", "dent_group", [(point(skin(at, clock)), group, [skin(at, clock)]) for group, at, clock in DENTS]),
        ("struck_off", "POINT", "name", [(point(skin(at, clock)), f"fix {n + 1}", [skin(at, clock)])
                                         for n, (at, clock) in enumerate(STRUCK)]),
        ("welds", "LINESTRING", "dent_group", [(line(ring(at)), group, ring(at)) for group, at in WELDS]),
    ]
    unfinished = f"{path}.{os.getpid()}"
    try:
        file = sqlite3.connect(unfinished)
        empty(file, [("WGS 84 / UTM zone 33N", SRID, "EPSG", SRID, PROJECTED, None, None)])
        for name, kind, column, rows in layers:
            layer(file, name, kind, SRID, IDENTIFIER, [(column, "TEXT")], [(blob, [word], places) for blob, word, places in rows])
        file.commit()
        file.close()
        os.replace(unfinished, path)
    finally:
        if os.path.exists(unfinished):
            os.remove(unfinished)


def empty(file, systems):
    """A GeoPackage file without layers: the three systems that every file has, and others."""
    file.execute(f"PRAGMA application_id = {APPLICATION}")
    file.execute("PRAGMA user_version = 10300")
    file.executescript(SCHEMA)
    every = {row[1]: row for row in [
        ("Undefined cartesian", -1, "NONE", -1, "undefined", None, None), ("Undefined geographic", 0, "NONE", 0, "undefined", None, None),
        ("WGS 84", 4326, "EPSG", 4326, GEOGRAPHIC, None, None), *systems]}
    file.executemany("INSERT INTO gpkg_spatial_ref_sys VALUES (?, ?, ?, ?, ?, ?, coalesce(?, 'undefined'))", every.values())


def layer(file, name, kind, srid, description, columns, rows, axes=(1, 0)):
    """`rows`: blob, the columns' values, the vertices. `axes`: whether there are z and m, as a GeoPackage file says it."""
    names = ", ".join(column for column, _ in columns)
    file.execute(f"CREATE TABLE {name} (fid INTEGER PRIMARY KEY AUTOINCREMENT NOT NULL, geom {kind}, "
                 + ", ".join(f"{column} {type}" for column, type in columns) + ")")
    x, y = (list(zip(*(place for _, _, places in rows for place in places))) or [[None], [None]])[:2]
    file.execute(
        "INSERT INTO gpkg_contents (table_name, data_type, identifier, description, min_x, min_y, max_x, max_y, srs_id) "
        "VALUES (?, 'features', ?, ?, ?, ?, ?, ?, ?)", (name, name, description, min(x), min(y), max(x), max(y), srid))
    file.execute("INSERT INTO gpkg_geometry_columns VALUES (?, 'geom', ?, ?, ?, ?)", (name, kind, srid, *axes))
    file.executemany(f"INSERT INTO {name} (geom, {names}) VALUES (?{', ?' * len(columns)})", [(blob, *values) for blob, values, _ in rows])
