"""Runs tapes that a list was made with, or any others, and prints their hits."""
import argparse

import viskorrel
from dig import ready
from dig.measure import told
from dig.problems import Problems
from viskorrel._library import NAME

HELP = """\
Runs a job: a tape of commands that load geometries under numbers and match them within a tolerance. include/viskorrel.h has the commands.

Each hit is printed with both numbers and the distance, twice: in as many decimal digits as tell it from every other number, and in hexadecimal.
Hits come by rising distance, then by first and by second number: the same tape gives the same lines. ./viskorrel FILE.gpkg --tape dig.tape
writes the tape of a list, and dig-2.tape, dig-3.tape and so on where it took several jobs.
"""
END = "Status 0: the hits of every tape were printed. Status 1: a tape is refused, or can't be read: stderr says why, and no hits are printed."
HEAD = ("first", "second", "distance", "hexadecimal")


def parser():
    options = argparse.ArgumentParser(prog="viskorrel job", description=HELP, epilog=END, formatter_class=argparse.RawDescriptionHelpFormatter,
                                      allow_abbrev=False, usage="./viskorrel job TAPE ... [--library PATH]")
    options.add_argument("tapes", metavar="TAPE", nargs="+", help="a file")
    options.add_argument("--library", metavar="PATH", help=f"{NAME}, or the folder that has it")
    return options


def command(words):
    asked = parser().parse_args(words)
    viskorrel.load(ready.library(asked.library))
    found, faults = [], []
    for path in asked.tapes:
        with open(path, "rb") as file:
            tape = file.read()
        try:
            found.append((path, viskorrel.job(tape)))
        except viskorrel.Refusal as refused:
            faults.append(f"{path}: {of_side(refused)}{told(refused)}")
    if faults:
        raise Problems(*faults)
    for path, hits in found:
        if len(found) > 1:
            print(f"{path}:")
        print(text(hits), end="")


def of_side(refused):
    return {1: "a match, its first number: ", 2: "a match, its second number: "}.get(refused.side, "")


def text(hits):
    """The hits in the order of this command, as a table, and how many there are."""
    rows = [(str(hit.first), str(hit.second), repr(hit.distance), hit.distance.hex()) for hit in sorted(hits, key=lambda hit: (hit.distance, *hit[:2]))]
    wide = [max(map(len, column)) for column in zip(HEAD, *rows)]
    lines = [f"{row[0]:>{wide[0]}}  {row[1]:>{wide[1]}}  {row[2]:<{wide[2]}}  {row[3]}" for row in ([HEAD] if rows else []) + rows]
    return "\n".join([*lines, f"{len(hits)} hit{'' if len(hits) == 1 else 's'}"]) + "\n"
