#!/usr/bin/env python3
"""Brings the repository's own definitions, fields, constructors and lemmas to the library's spelling: words in snake case.

Run once at the top of the repository, right after the toolchain's port.py, on what that left. The names are read from specs/ and proofs/;
functions of src/, exported names, strings, inputs and outputs keep theirs. A lemma whose new name would be that of a definition gets `_lem`.
--list prints old and new names, and changes nothing.
"""
import collections
import glob
import os
import re
import sys

ROOT = os.path.dirname(os.path.dirname(os.path.dirname(os.path.realpath(__file__))))
WORD = r"[^\s(){}\[\],;.«»`\"⟨⟩]+"
PATH = re.compile(rf"{WORD}(?:\.{WORD})*|\"(?:[^\"\\]|\\.)*\"")
MADE = re.compile(r"/proofs/.*/(Proof|Invariants|Answers)\.antt$")
DEFINED = re.compile(rf"(?:abbrev |unfoldable |opaque |pub )*({WORD}) :")
RECORD = re.compile(rf"(?:pub )?(?:record|data) ({WORD})")
FIELD = re.compile(rf" +(?:pub )?({WORD}) :")
LIBRARIES = ("std", "core")
IN_CRATE = {"fixtures": {"longest-line": "longest_line_of", "shortest-line": "shortest_line_of"}}  # constructors that would fall together with operations
# constructors that share a line, parameters of modules, names declared below others
MORE = ("itemsOfKind", "pointClass", "lineClass", "polygonClass", "collectionClass", "unknownClass", "boxOf", "blockItems", "mapPair", "newBest", "otherLo", "otherHi", "noLine", "aLine")
WHOLE = {"headerChecks3d": "header_checks_3d", "headerOf3d": "header_of_3d", "sumOf3": "sum_of_3", "Command-at": "CommandAt"}


def crates():
    with open(os.path.join(ROOT, "crates.txt"), encoding="utf-8") as file:
        return {line.split(":")[0].split()[0] for line in file if ":" in line and not line.startswith("#")}


OWN = crates()


def read(path):
    with open(path, encoding="utf-8") as file:
        return file.read()


def snake(name):
    """The name in snake case; one that begins with a capital is a type and stays."""
    if name in WHOLE:
        return WHOLE[name]
    if not name[0].islower():
        return name
    return re.sub(r"(?<=[a-z0-9])([A-Z])", r"_\1", name).lower().replace("-", "_")


def declared(path, text):
    """(kind, name) of each definition, field and lemma: kind spec, lemma or field; of a function's proof file its own lemmas only."""
    made, within = MADE.search(path), None
    for line in text.split("\n"):
        depth = len(line) - len(line.lstrip())
        if line.strip() and within is not None and depth <= within:
            within = None
        if re.match(r" *(?:abbrev |unfoldable |pub )*(?:record|data) ", line):
            within = depth
        if match := RECORD.match(line):
            yield "spec" if "/specs/" in path else "lemma", match[1]
        elif match := DEFINED.match(line):
            rest = line[match.end():].strip()
            if not made or not (rest.startswith(("tie.", "goal.")) or "statement" in rest):
                yield "spec" if "/specs/" in path else "lemma", match[1]
        elif (match := FIELD.match(line)) and not made:
            yield "field" if within is not None else "lemma", match[1]


def imported(text):
    """The names that a file takes from the library, which keep their spelling there."""
    names = set()
    for match in re.finditer(rf"(?m)^(?:ghost |pub |unfoldable )*use ([\w.'·-]+)\.\{{([^}}]*)\}}", text):
        if not is_own(match[1].split(".")):
            for item in match[2].split(","):
                names |= set(item.split())
    return names


def is_own(path):
    return path[0] == "Rattle" and len(path) > 1 and path[1] in OWN


def is_library(path):
    return len(path) > 1 and not is_own(path) and (path[0] in ("Rattle", "borrow", "denote", "base", "mathlib", "native", "Prim", "lib", "contract", "types", "mir", "prog", "seplogic", "ghost"))


def table(files):
    """Old name to new name of all that is shared, and of each proof file's own lemmas."""
    kinds, where, local = collections.defaultdict(set), collections.defaultdict(set), {}
    for path, text in files.items():
        for kind, name in declared(path, text):
            if MADE.search(path):
                local.setdefault(path, set()).add(name)
            else:
                kinds[name].add(kind)
                where[name].add(path)
    mentions = {path: set(re.findall(WORD, text)) for path, text in files.items()}
    taken = {path: imported(text) for path, text in files.items()}
    words = {snake(name): name for name in kinds if "spec" in kinds[name]}
    shared = {}
    for name in kinds:
        new = snake(name)
        other = words.get(new)
        if kinds[name] == {"lemma"} and other and other != name:
            same_crate = {p.split("/")[-3] for p in where[name]} & {p.split("/")[-3] for p in where[other]}
            if same_crate or any(name in seen and other in seen for seen in mentions.values()):
                new += "_lem"
        if new != name and any(new in taken[path] and name in seen for path, seen in mentions.items()):
            new += "_lem"
        if new != name:
            shared[name] = new
    shared.update((name, snake(name)) for name in MORE)
    return shared, {path: {n: snake(n) for n in names if snake(n) != n and n not in shared} for path, names in local.items()}


def turn(text, names, comment=None, quoted=False):
    """The text with its names turned; in comments, and in pages, a name with a dash only between backquotes."""
    def word(match):
        whole = match[0]
        if whole.startswith('"'):
            return whole
        parts = whole.split(".")
        if is_library(parts):
            return whole
        return ".".join(names.get(part, part) for part in parts)

    def plain(piece):
        return PATH.sub(lambda m: m[0] if "-" in m[0] else word(m), piece)

    def prose(piece):
        spans = piece.split("`")
        return "`".join(PATH.sub(word, s) if i % 2 else (s if quoted else plain(s)) for i, s in enumerate(spans))

    if comment is None:
        return prose(text)
    lines = []
    for line in text.split("\n"):
        at = comment_start(line, comment)
        lines.append(PATH.sub(word, line[:at]) + prose(line[at:]))
    return "\n".join(lines)


def comment_start(line, mark):
    at, inside = 0, False
    while at < len(line):
        if line[at] == '"' and mark == "//":
            inside = not inside
        elif line[at] == "\\" and inside:
            at += 1
        elif not inside and line.startswith(mark, at) and (mark == "//" or at == 0 or line[at - 1] in " \t"):
            return at
        at += 1
    return len(line)


def without(names, kept):
    return {old: new for old, new in names.items() if old not in kept}


def turn_edit(text, names):
    """A must-fail edit: its texts are code or definitions, by the file that it names."""
    mark, lines = "//", []
    for line in text.split("\n"):
        head = re.match(r"(old|new): ", line)
        if line.startswith("file:"):
            mark = "--" if line.rstrip().endswith(".antt") else "//"
        lines.append(line[:head.end()] + turn(line[head.end():], names, mark) if head else line if line.startswith("file:") else turn(line, names))
    return "\n".join(lines)


def main(words):
    found = glob.glob(os.path.join(ROOT, "crates/*/specs/**/*.antt"), recursive=True) + glob.glob(os.path.join(ROOT, "crates/*/proofs/**/*.antt"), recursive=True)
    files = {path: read(path) for path in sorted(found) if "/out/" not in path}
    shared, local = table(files)
    if words == ["--list"]:
        for old, new in sorted(shared.items()):
            print(old, new)
        return 0
    if words:
        print(__doc__)
        return 2
    sources = glob.glob(os.path.join(ROOT, "crates/*/src/**/*.rt"), recursive=True)
    for path in list(files) + sorted(sources):
        text = read(path)
        crate = os.path.relpath(path, os.path.join(ROOT, "crates")).split(os.sep)[0]
        names = without({**shared, **local.get(path, {}), **IN_CRATE.get(crate, {})}, imported(text))
        write(path, text, turn(text, names, "//" if path.endswith(".rt") else "--"))
    for path in sorted(glob.glob(os.path.join(ROOT, "crates/*/must-fail/*.edit"))):
        text = read(path)
        write(path, text, turn_edit(text, {**shared, **IN_CRATE.get(path.split(os.sep)[-3], {})}))
    for path in sorted(glob.glob(os.path.join(ROOT, "*.md")) + glob.glob(os.path.join(ROOT, "docs/*.md"))):
        if os.path.basename(path) != "PORT.md":
            text = read(path)
            write(path, text, turn(text, shared, quoted=True))
    return 0


def write(path, old, new):
    if new != old:
        with open(path, "w", encoding="utf-8") as file:
            file.write(new)


if __name__ == "__main__":
    sys.exit(main(sys.argv[1:]))
