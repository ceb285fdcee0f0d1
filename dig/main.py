"""The command line."""
import argparse
import math
import os
import signal
import sqlite3
import sys
from collections import namedtuple

import viskorrel
from dig import diglist, listing, ready, stamp
from dig.chainage import Chainage
from dig.geopackage import GeoPackage
from dig.matching import Measuring
from dig.outputs import Outputs
from dig.problems import Problems
from viskorrel._library import NAME, VARIABLE

ROLES = {
    "dents": ["dents", "dent"], "struck": ["struck_off", "struck", "struck_dents"], "welds": ["welds", "weld"],
    "pipe": ["centreline", "centerline", "pipe", "pipeline"], "fittings": ["fittings", "fitting"]}
MEASURED = ("dents", "struck", "welds")  # a list needs these
GROUP = ["dent_group", "group", "group_id"]
FORMS = {"csv": "write the list as CSV", "svg": "draw plan and profile", "html": "write the list as a page, with a sheet for each dig",
         "gpkg": "write dig lines and dents as layers of a GeoPackage file"}

HELP = """\
The dig list of a corridor GeoPackage.

Each dent with its nearest struck-off dent, by 3D distance: struck off within the tolerance, else NEW.
Each dent group that has a NEW dent with the longest line from its dents to its weld: the width of the dig.

  ./viskorrel demo [FOLDER]        makes corridor.gpkg in the folder (target/demo; installed: viskorrel-demo), prints its list,
                                   writes dig.csv, .svg, .html and .gpkg
  ./viskorrel FILE.gpkg [options]  prints the list of your file
  ./viskorrel join OUT.gpkg --base FILE.gpkg COPY.gpkg ...    joins copies of a file that were changed apart (join --help);
                                   two geometries are joined by viskorrel.join in Python, Viskorrel_Join in SQLite, viskorrel_join in C
  ./viskorrel job TAPE ...         runs the tapes that --tape wrote, or others, and prints their hits (job --help)
"""
END = """\
Coordinates are in metres and have Z. Status 0: the whole list was printed, and every file written. Status 1: there are errors, on stderr;
there is no list, no file is new, and a file of an earlier run at the same path has been renamed to .earlier. Status 2: the command line is
at fault. dig/README.md has more.
"""


def metres(word):
    number = float(word)
    if not math.isfinite(number) or number < 0:
        raise ValueError
    return number


def parser():
    options = argparse.ArgumentParser(
        prog="viskorrel", description=HELP, epilog=END, formatter_class=argparse.RawDescriptionHelpFormatter, allow_abbrev=False,
        usage="./viskorrel demo [FOLDER] | FILE.gpkg [options] | join OUT.gpkg --base FILE.gpkg COPY.gpkg ... | job TAPE ...")
    options.add_argument("file", metavar="FILE.gpkg", help="a GeoPackage file, or the word demo")
    options.add_argument("folder", nargs="?", help=argparse.SUPPRESS)
    for role, names in ROLES.items():
        use = {"pipe": ", for chainage and picture", "fittings": ", only drawn"}.get(role, "")
        options.add_argument(f"--{role}", metavar="TABLE", help=f"default: {' or '.join(names)}{use}")
    options.add_argument("--fixes", metavar="TABLE", help="a tracker's fixes, points with M: the list shows the M of the fix nearest to each dig")
    options.add_argument("--group", metavar="COLUMN", help=f"the group of dents and welds, default: {' or '.join(GROUP)}")
    options.add_argument("--label", metavar="COLUMN", help="what the crew calls a dent, default: its feature id")
    options.add_argument("--tolerance", metavar="METRES", type=metres, default=0.25, help="default: 0.25")
    options.add_argument("--rule", type=int, choices=(1, 2), default=1,
                         help="how what passes through a face is measured: 1, at its ends and at the face's edges (default); 2, it touches the face")
    options.add_argument("--metres", action="store_true", help="all tables are in metres of one system, whatever the file says of it")
    for form, use in FORMS.items():
        options.add_argument(f"--{form}", metavar="FILE", help=use)
    options.add_argument("--tape", metavar="FILE", help="write the job that dents are matched by, to be run again: ./viskorrel job FILE")
    options.add_argument("--single-calls", action="store_true", help=argparse.SUPPRESS)  # no jobs; the list is the same
    options.add_argument("--no-box-test", action="store_true", help=argparse.SUPPRESS)  # measures every pair; the list is the same
    usual = "installed one" if ready.INSTALLED else "one of the repository"
    options.add_argument("--library", metavar="PATH", help=f"{NAME}, or the folder that has it; default: {VARIABLE}, else the {usual}")
    options.add_argument("--version", action="version", version=f"viskorrel {viskorrel.__version__}")
    return options


def main(words):
    other = words[0] if words[:1] in (["join"], ["job"]) else None
    signal.signal(signal.SIGTERM, stopped)  # so that what was begun is removed
    try:
        if other == "join":
            from dig import join  # what a run does not need is not loaded
            join.command(words[1:])
        elif other == "job":
            from dig import job
            job.command(words[1:])
        else:
            command(words)
        return 0
    except (Problems, OSError, sqlite3.Error) as fault:
        lines, status = getattr(fault, "lines", [str(fault)]), 1
        if isinstance(fault, BrokenPipeError):
            lines = ["what reads the list closed it early"]
        if isinstance(fault, OSError):
            os.dup2(os.open(os.devnull, os.O_WRONLY), sys.stdout.fileno())  # else the interpreter tries to print the rest when it ends
        lines, told = [f"error: {line}" for line in lines], getattr(fault, "told", [])
    except KeyboardInterrupt as fault:
        lines, told, status = ["", "Stopped."], getattr(fault, "told", []), 130
    print("\n".join(lines + told + [{"join": "Nothing joined.", "job": "No hits."}.get(other, "No dig list.")]), file=sys.stderr)
    return status


def stopped(*_):
    raise KeyboardInterrupt


def command(words):
    options = parser()
    try:
        asked = options.parse_args(words)
        if asked.file != "demo" and asked.folder is not None:
            options.error("one file at a time")
        if asked.tape and (asked.rule != 1 or asked.single_calls):
            options.error("--tape: a job goes by rule 1")
    except SystemExit as end:
        if end.code:
            outdated(words)
        raise
    demo = asked.file == "demo"
    if demo:
        demo_paths(asked)
    paths = [path for path in (getattr(asked, form) for form in FORMS) if path] + tape_paths(asked.tape)
    with Outputs(paths, [asked.file], lambda path: path == asked.gpkg and is_list(path)) as outputs:
        if demo:
            make_demo(asked)
        package = GeoPackage(asked.file)
        try:
            listed = make(asked, package)
            package.opened.unchanged()
        finally:
            package.close()
        write(asked, listed, outputs)
        outputs.publish()
        sys.stdout.write(listing.text(listed.list, asked.tolerance))
        sys.stdout.flush()
    for path in outputs.new:
        print(f"Written: {path}", file=sys.stderr)


def tape_paths(path):
    """The first tape of a list, and the others that an earlier run wrote beside it."""
    paths = [path] if path else []
    while paths and os.path.lexists(path) and os.path.lexists(numbered(path, len(paths) + 1)):
        paths.append(numbered(path, len(paths) + 1))
    return paths


def write_tapes(path, tapes, outputs):
    if not tapes:
        raise Problems(f"{path}: there are too many pairs within reach of the tolerance to be written on tapes")
    for number, tape in enumerate(tapes, 1):
        at = numbered(path, number)
        if at not in outputs.paths and os.path.lexists(at):
            raise Problems(f"{at}: is there and is no tape of an earlier run: it is left alone")
        outputs.bytes(at, tape)


def numbered(path, number):
    """dig.tape, dig-2.tape, dig-3.tape."""
    start, end = os.path.splitext(path)
    return path if number == 1 else f"{start}-{number}{end}"


def is_list(path):
    from dig import layers
    return layers.is_ours(path)


def outdated(words):
    """A command line at fault: what an earlier run wrote to its outputs is not left looking current."""
    scan = argparse.ArgumentParser(add_help=False, allow_abbrev=False)
    for form in (*FORMS, "tape"):
        scan.add_argument(f"--{form}", nargs="?")
    found = vars(scan.parse_known_args(words)[0])
    outputs = Outputs([path for path in found.values() if path] + tape_paths(found["tape"])[1:], [word for word in words if word not in found.values() and os.path.isfile(word)],
                      lambda path: path == found["gpkg"] and is_list(path))
    outputs.set_aside()
    for line in outputs.told():
        print(line, file=sys.stderr)


def demo_paths(asked):
    from dig import build
    folder = asked.folder or build.DEMO
    asked.file = os.path.join(folder, "corridor.gpkg")
    for form in FORMS:
        setattr(asked, form, getattr(asked, form) or os.path.join(folder, f"dig.{form}"))


def make_demo(asked):
    from dig import corridor
    os.makedirs(os.path.dirname(asked.file) or ".", exist_ok=True)
    if os.path.exists(asked.file) and not ours(asked.file, corridor.IDENTIFIER):
        raise Problems(f"{asked.file} is there and is not the demo's: it is left alone")
    ready.library(asked.library)
    corridor.make(asked.file)


def ours(path, identifier):
    """Whether the demo made a file."""
    file = sqlite3.connect(path)
    try:
        return file.execute("SELECT count(*) FROM gpkg_contents WHERE description <> ?", (identifier,)).fetchone()[0] == 0
    except sqlite3.Error:
        return False
    finally:
        file.close()


# the list; lists of features by role; the centreline's chainage; rows of gpkg_spatial_ref_sys; the dents' geometry type, z and m
Made = namedtuple("Made", "list features chainage systems kind")


def make(asked, package):
    tables = {role: package.find(role, getattr(asked, role), names, needed=role in MEASURED) for role, names in ROLES.items()}
    if asked.fixes is not None:  # only where it is asked for: a table of that name may be something else
        tables["fixes"] = package.find("fixes", asked.fixes, ["fixes"])
    apart(tables)
    groups = {role: package.group_column(tables[role], asked.group, GROUP) for role in ("dents", "welds")}
    labels = {role: package.label_column(tables[role], asked.label, role == "dents") for role in ("dents", "struck")}
    there = [table for table in tables.values() if table]
    system = package.metres(there, asked.metres)
    library = viskorrel.load(ready.library(asked.library))
    features, faults = {}, []
    for role in ROLES:
        table = tables[role]
        features[role], found = package.features(table, groups.get(role), labels.get(role)) if table else ([], [])
        faults += found
    if "fixes" in tables:
        from dig import fixes  # what a run does not need is not loaded
        tracked, found = fixes.of(package, tables["fixes"])
        faults += found
    if faults:
        raise Problems(*faults)
    chainage = Chainage(features["pipe"])
    if asked.pipe and not chainage.there():
        raise Problems(f"{tables['pipe']}: there is no line in it, so it is no centreline")
    measuring = Measuring(asked.rule, not asked.no_box_test, not asked.single_calls)
    listed = diglist.make(features, asked.tolerance, chainage, measuring)
    if "fixes" in tables:
        fixes.pass_by(listed, tracked, measuring)
    listed.warnings = package.opened.warnings + listed.warnings
    listed.stamp = stamp.of(package.opened, asked.tolerance, asked.rule, system, library.path)
    for line in listed.warnings:
        print(f"warning: {line}", file=sys.stderr)
    srids = dict.fromkeys(package.tables[table][1] for table in there)
    return Made(listed, features, chainage, [row for srid in srids for row in package.system_row(srid)], package.kinds[tables["dents"]])


def apart(tables):
    """A table in two roles would strike off everything, or measure a thing against itself."""
    faults = []
    for table in dict.fromkeys(table for table in tables.values() if table):
        roles = [role for role, other in tables.items() if other == table]
        if len(roles) > 1:
            faults.append(f"table {table} is taken for {' and '.join(f'--{role}' for role in roles)}: each needs a table of its own")
    if faults:
        raise Problems(*faults)


def write(asked, made, outputs):
    if asked.csv:
        outputs.text(asked.csv, listing.table(made.list))
    if asked.svg:
        from dig import picture
        outputs.text(asked.svg, picture.draw(made))
    if asked.html:
        from dig import page
        outputs.text(asked.html, page.draw(made, asked.tolerance))
    if asked.gpkg:
        from dig import layers
        outputs.add(asked.gpkg, lambda path: layers.write(path, made))
    if asked.tape:
        write_tapes(asked.tape, made.list.tapes, outputs)
