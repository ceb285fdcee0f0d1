"""Whether a reference system's coordinates are metres: its WKT 1 or WKT 2, as a GeoPackage file holds them."""
import re
from collections import namedtuple

from dig.problems import Problems

TOKEN = re.compile(r'\s*(?:"((?:[^"]|"")*)"|([\[\](),])|([^\s"\[\](),]+))')
GEOGRAPHIC = {"GEOGCS", "GEOGCRS", "GEOGRAPHICCRS"}
GEODETIC = {"GEODCRS", "GEODETICCRS"}  # ellipsoidal or Cartesian: its CS says which
GEOCENTRIC = {"GEOCCS"}
PLANE = {"PROJCS", "PROJCRS", "PROJECTEDCRS", "DERIVEDPROJCRS", "LOCAL_CS", "ENGCRS", "ENGINEERINGCRS"}
VERTICAL = {"VERT_CS", "VERTCS", "VERTCRS", "VERTICALCRS"}
COMPOUND = {"COMPD_CS", "COMPOUNDCRS"}
UNITS = {"UNIT", "LENGTHUNIT", "ANGLEUNIT"}
UNSAID = {"", "undefined", "unknown"}


class Node(namedtuple("Node", "word parts")):
    """`parts` are Nodes, and words and numbers as text."""
    __slots__ = ()

    def nodes(self, *words):
        return [part for part in self.parts if isinstance(part, Node) and part.word in words]

    def texts(self):
        return [part for part in self.parts if isinstance(part, str)]


def parse(text):
    """The nodes at the top of a WKT text; ValueError where it is none."""
    tokens = []
    at = 0
    text = text.rstrip()
    while at < len(text):
        found = TOKEN.match(text, at)
        if not found:
            raise ValueError(f"no WKT at character {at + 1}")
        quoted, mark, word = found.groups()
        tokens.append(("text", quoted.replace('""', '"')) if quoted is not None else ("mark", mark) if mark else ("word", word))
        at = found.end()
    nodes, at = members(tokens, 0)
    if at < len(tokens) or not nodes or not all(isinstance(node, Node) for node in nodes):
        raise ValueError("no WKT")
    return nodes


def members(tokens, at):
    """What stands between commas from a place on, and the place of the bracket that ends it."""
    found = []
    while at < len(tokens) and not (tokens[at][0] == "mark" and tokens[at][1] in "])"):
        kind, content = tokens[at]
        if kind == "mark":
            if content != ",":
                raise ValueError("a bracket without a word")
            at += 1
        elif kind == "word" and at + 1 < len(tokens) and tokens[at + 1] in (("mark", "["), ("mark", "(")):
            parts, at = members(tokens, at + 2)
            if at >= len(tokens):
                raise ValueError("a bracket is not closed")
            found.append(Node(content.upper(), parts))
            at += 1
        else:
            found.append(content)
            at += 1
    return found, at


def objections(nodes):
    """Why coordinates of a system are not metres in a plane with heights; none: they are."""
    return [reason for node in nodes for reason in of_node(node)]


def of_node(node):
    if node.word in GEOGRAPHIC:
        return ["is geographic, in degrees"]
    if node.word in GEODETIC:
        shape = [part.texts()[0].lower() for part in node.nodes("CS") if part.texts()]
        return ["is geocentric, without a plan or heights"] if shape == ["cartesian"] else ["is geographic, in degrees"]
    if node.word in GEOCENTRIC:
        return ["is geocentric, without a plan or heights"]
    if node.word in COMPOUND:
        parts = [part for part in node.parts if isinstance(part, Node) and part.word in GEOGRAPHIC | GEODETIC | GEOCENTRIC | PLANE | VERTICAL | {"BOUNDCRS"}]
        return objections(parts) if parts else ["is compound and has no parts"]
    if node.word == "BOUNDCRS":
        return objections([part for source in node.nodes("SOURCECRS") for part in source.parts if isinstance(part, Node)]) \
            if node.nodes("SOURCECRS") else ["is bound and has no source"]
    if node.word in PLANE | VERTICAL:
        return units(node) + pseudo(node)
    return [f"is of an unknown kind, {node.word}"]


def units(node):
    """All units of a plane or of heights must be the metre: at the end, and at each axis."""
    said = node.nodes(*UNITS) + [unit for axis in node.nodes("AXIS") for unit in axis.nodes(*UNITS)]
    what = "has heights in" if node.word in VERTICAL else "is in"
    if not said:
        return [f"{what} a unit that is not said"]
    reasons = []
    for unit in said:
        name, factor = (unit.texts() + ["?", "?"])[:2]
        try:
            metre = float(factor) == 1 and unit.word != "ANGLEUNIT"
        except ValueError:
            metre = False
        if not metre:
            reasons.append(f"{what} {name} ({factor} m), not metres")
    return list(dict.fromkeys(reasons))


def pseudo(node):
    """Web Mercator calls its unit the metre; on the ground it is one at the equator only."""
    methods = [part.texts()[0] for part in node.nodes("PROJECTION") if part.texts()]
    methods += [method.texts()[0] for part in node.nodes("CONVERSION") for method in part.nodes("METHOD") if method.texts()]
    names = methods + node.texts()[:1]
    if any(re.search("pseudo.?mercator|mercator_auxiliary_sphere", name, re.IGNORECASE) for name in names):
        return ["is Pseudo-Mercator, whose metres are not metres on the ground"]
    return []


class System(namedtuple("System", "srid name reasons")):
    """`name` is what the file calls it, with its authority's code; `reasons` say why it is not in metres."""
    __slots__ = ()

    def __str__(self):
        return f"reference system {self.srid} ({self.name})"


def system(rows, srid):
    """A reference system of a file: rows are name, organization, code and the definitions (WKT 1, WKT 2) of an srs_id."""
    if not rows:
        return System(srid, "without a name", ["is missing in gpkg_spatial_ref_sys"])
    name, organization, code, *definitions = rows[0]
    known = f"{name}, {organization}:{code}"
    said = [text for text in (str(text or "").strip() for text in definitions) if text.lower() not in UNSAID]
    if srid in (-1, 0) or not said:
        return System(srid, known, ["is undefined"])
    reasons = []
    for text in said:
        try:
            reasons += objections(parse(text))
        except ValueError as fault:
            reasons.append(f"cannot be read ({fault})")
    return System(srid, known, list(dict.fromkeys(reasons)))


def check(systems, tables, trusted):
    """All tables in one system, in metres; `trusted`: the user says so, whatever the file says. What the outputs say of it."""
    used = {srid: systems[srid] for _, srid in tables}
    faults = []
    if len(used) > 1:
        faults.append("the tables are in different reference systems: " + ", ".join(f"{table} in {systems[srid]}" for table, srid in tables))
    faults += [f"{known} {reason}" for known in used.values() for reason in known.reasons]
    if faults and not trusted:
        raise Problems(*[f"{fault}: distances would not be metres (ogr2ogr -t_srs transforms a file; --metres says that it is in metres all the same)"
                         for fault in faults])
    told = "; ".join(f"{known.srid} {known.name}" for known in used.values())
    return f"{told}: metres by --metres, although " + "; ".join(faults) if faults else told
