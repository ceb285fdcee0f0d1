"""Fixes of a tracker: points whose M is the hour of passage; and of each dig the nearest."""
import math
import struct
from collections import namedtuple

import viskorrel
from dig import matching
from dig.bounds import COLLECTIONS, ENVELOPE
from dig.measure import line

M_FLAG, SRID_FLAG = 0x40000000, 0x20000000
POINT = 1

# what a list shows of it: the hour as it stands in M, whatever its unit
Passage = namedtuple("Passage", "hour fix distance")

Fix = namedtuple("Fix", "table id blob hour")

# a dig as it is measured, and as the layer of that name has it
DigLine = namedtuple("DigLine", "id blob table", defaults=["dig_lines"])


def of(package, table):
    """The fixes of a table by id; and the faults, one line for each. An M that is missing is a fault: the library reads it as 0."""
    features, faults = package.features(table)
    if not features:
        return [], faults or [f"{table}: there is no fix in it"]
    types = [point_type(feature.blob) for feature in features]
    if not any(code is None or has_m(code) for code in types):
        return [], faults + [f"{table}: no fix has M, which is to be the hour of passage (gpkg_geometry_columns has m {package.kinds[table][2]})"]
    found = []
    for feature, code in zip(features, types):
        hour = math.nan if code is None else viskorrel.read(feature.blob)[0][1][0][3]
        fault = fault_of(code, hour)
        if fault:
            faults.append(f"{table}, feature {feature.id}: {fault}")
        else:
            found.append(Fix(table, feature.id, feature.blob, hour))
    return found, faults


def fault_of(code, hour):
    if code is None:
        return "a fix is one point"
    if not has_m(code):
        return "there is no M, so no hour of passage"
    return None if math.isfinite(hour) else f"M is {hour}, which is no hour of passage"


def point_type(blob):
    """The type of the one point in a blob that the library reads, also in collections of one; None: it is not one point."""
    at = 8 + 8 * ENVELOPE[blob[3] >> 1 & 7] if blob[:2] == b"GP" else 0
    while True:
        order = "<" if blob[at] else ">"
        code, = struct.unpack_from(order + "I", blob, at + 1)
        at += 9 if code & SRID_FLAG else 5
        kind = (code & 0xFFFF) % 1000
        if kind == POINT:
            return code
        if kind not in COLLECTIONS or struct.unpack_from(order + "I", blob, at)[0] != 1:
            return None
        at += 4


def has_m(code):
    """As the library walks it: thousands of 1 to 3 decide, else the flag."""
    thousands = (code & 0xFFFF) // 1000
    return thousands in (2, 3) if thousands in (1, 2, 3) else bool(code & M_FLAG)


def pass_by(listed, fixes, measuring):
    """Notes at each dig the fix nearest to its longest line in 3D, the first by id of several as near."""
    lines = [DigLine(dig.name, line([dig.start, dig.end])) for dig in listed.digs]
    for dig, (at, distance) in zip(listed.digs, matching.nearest(lines, fixes, "digs with fixes", measuring)):
        dig.passage = Passage(fixes[at].hour, fixes[at], distance)
    listed.passages = True
