"""Writes the data of the program `joins`: README.md has the layout. With --list, prints the name of each record and what is expected of it.

What is expected is the model's; of a call that was written by hand the model must say the same.
"""
import pathlib
import struct
import sys

sys.dont_write_bytecode = True

import blobs
import calls
import chance
import model

CRATE = pathlib.Path(__file__).resolve().parent.parent.parent / "crates" / "joins"
FILL = 165  # what the program fills the output with
LONGEST_BLOB, LONGEST_OUTPUT = 1024, 1024  # README.md tells them


def by_hand():
    for call in calls.calls():
        answer, output = model.join(call.a, call.b, bytes([FILL]) * call.lent)
        if isinstance(call.expected, calls.Taken):
            told = call.expected.bytes
            agrees = answer == (model.ANSWERED, 0, 0, len(told)) and output == told + bytes([FILL]) * (call.lent - len(told))
        else:
            agrees = answer == (model.REFUSED, call.expected.number, call.expected.side, 0) and output == bytes([FILL]) * call.lent
        if not agrees:
            sys.exit(f"{call.name}: by hand {call.expected}, by the model {answer}")
        yield call.name, call.a, call.b, call.lent


def damaged():
    """Each byte of a few blobs in turn, as side 1 and side 2 alternately."""
    whole = [
        blobs.gp(blobs.point(1.0, 2.0, 3.0), 4), blobs.point(1.0, 2.0, 3.0, code=blobs.FLAG_Z | 1, order=">", srid=4),
        blobs.gp(blobs.collection(blobs.line(order=">"), blobs.face((), srid=3)), 4, order=">")]
    good = blobs.gp(blobs.collection(), 4)
    for n, blob in enumerate(whole):
        for place in range(len(blob)):
            for value in sorted({0, 2, 0xFF, blob[place] ^ 0x80} - {blob[place]}):
                one = blob[:place] + bytes([value]) + blob[place + 1:]
                sides = (one, good) if (place + value) % 2 else (good, one)
                yield f"blob {n}, byte {place} is {value}", *sides, 100


def records():
    drawn = ((f"drawn {n}", a, b, lent) for n, (a, b, lent) in enumerate(chance.calls(600, 1)) if max(len(a), len(b)) <= 400)
    return [*by_hand(), *damaged(), *drawn]


def main():
    listing, written = sys.argv[1:] == ["--list"], []
    for n, (name, a, b, lent) in enumerate(records()):
        assert max(len(a), len(b)) <= LONGEST_BLOB and lent <= LONGEST_OUTPUT, name
        answer, after = model.join(a, b, bytes([FILL]) * lent)
        written.append(struct.pack("<7I", len(a), len(b), lent, *answer) + a + b + after[:answer.size])
        if listing:
            said = f"{answer.size} bytes" if answer.outcome == model.ANSWERED else f"refused {answer.number} side {answer.side}"
            print(f"{n} {name}; {lent} lent: {said}")
    if not listing:
        (CRATE / "data").mkdir(parents=True, exist_ok=True)
        (CRATE / "data" / "calls").write_bytes(b"".join(written))


main()
