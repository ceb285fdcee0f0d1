"""Writes the data of the program `samples` and the output that is expected of it.

A blob is written as a little-endian u32, its length, and its bytes. What is expected of it is
either a refusal's number, or an SRID and runs: pairs of a kind and a list of (x, y, z, m).
"""
import math
import pathlib
import struct
import sys

sys.dont_write_bytecode = True

import handmade
import outside

HERE = pathlib.Path(__file__).resolve().parent
CRATE = HERE.parent.parent / "crates" / "samples"
FLOATS = 4  # of a coordinate: x, y, z, m


def pattern(x):
    """An ordinate as the program prints it."""
    return "NaN" if math.isnan(x) else struct.pack(">d", x).hex()


def refusal(number):
    return f"refused {number} side 1"


def refused_line(number):
    """The walk's refusal comes before 15, so it is the same with no workspace at all."""
    told = refusal(number)
    return f"{told} changed 0 0; sizes {told}; exact {told} changed 0 0"


def read_line(srid, runs):
    ordinates = [pattern(v) for _, coordinates in runs for c in coordinates for v in c]
    table = [f"{kind} {len(coordinates)}" for kind, coordinates in runs]
    n, r = len(ordinates) // FLOATS, len(runs)
    parts = [
        f"srid {srid} coords {n} runs {r} changed 0 0",
        " ".join(["table"] + table),
        " ".join(["floats"] + ordinates),
        f"sizes {FLOATS * n} {2 * r}",
        "exact read changed 0 0",
    ]
    if n:
        parts.append(f"float short {refusal(15)} changed 0 0")
        parts.append(f"number short {refusal(15)} changed 0 0")
    return "; ".join(parts)


def line(expected):
    if expected[0] == "refused":
        return refused_line(expected[1])
    return read_line(expected[1], expected[2])


def main():
    cases = outside.cases(HERE / "outside.tsv") + handmade.cases()
    if sys.argv[1:] == ["--list"]:
        for i, (name, blob, expected) in enumerate(cases):
            print(f"{i} {name} {len(blob)} bytes: {line(expected)}")
        return
    (CRATE / "data").mkdir(parents=True, exist_ok=True)
    with open(CRATE / "data" / "blobs", "wb") as out:
        for _, blob, _ in cases:
            out.write(struct.pack("<I", len(blob)) + blob)
    with open(CRATE / "stdout", "w", encoding="ascii", newline="\n") as out:
        for i, (_, _, expected) in enumerate(cases):
            out.write(f"{i} {line(expected)}\n")


main()
