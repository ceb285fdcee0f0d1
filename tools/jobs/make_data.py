"""Writes the data of the program `jobs`: README.md has the layout. With --list, prints the name of each record and what is expected of it.

What is expected is the model's, measured by measuring.py; of a job that was written by hand the model must say the same.
"""
import pathlib
import struct
import sys

sys.dont_write_bytecode = True

import calls
import drawn
import measuring
import model
import tapes

CRATE = pathlib.Path(__file__).resolve().parent.parent.parent / "crates" / "jobs"
LONGEST_TAPE, MOST_FLOATS, MOST_NUMBERS, MOST_PLACES = 4095, 256, 64, 64  # README.md tells them
DRAWN = 500


def answer_to(tape, lent):
    return model.job(tape, lent[4:], measuring.measure_by(*lent[:4]))


def by_hand():
    for call in calls.calls():
        answer = answer_to(call.tape, call.lent)
        if isinstance(call.expected, calls.Hits):
            agrees = answer == (model.ANSWERED, 0, 0, call.expected.hits)
        else:
            agrees = answer == (model.REFUSED, call.expected.number, call.expected.side, [])
        if not agrees:
            sys.exit(f"{call.name}: by hand {call.expected}, by the model {answer}")
        yield call.name, call.tape, call.lent


def damaged():
    """Each byte of two tapes in turn."""
    whole = [b"".join(calls.FOUND), b"".join([tapes.load(2, tapes.gp(calls.P4)), tapes.tolerance(8.0), tapes.match(2, 2), tapes.END])]
    for n, tape in enumerate(whole):
        for at in range(len(tape)):
            for value in sorted({0, 2, 0xFF, tape[at] ^ 0x80} - {tape[at]}):
                yield f"tape {n}, byte {at} is {value}", tape[:at] + bytes([value]) + tape[at + 1:], calls.Lent()


def records():
    """Those whose blobs have simple distances."""
    chance = ((f"drawn {n}", tape, calls.Lent(*lent)) for n, (tape, lent) in enumerate(drawn.Tapes(1).calls(DRAWN)))
    for name, tape, lent in [*by_hand(), *damaged(), *chance]:
        try:
            yield name, tape, lent, answer_to(tape, lent)
        except measuring.NotSimple:
            pass


def record(tape, lent, answer):
    hits = b"".join(struct.pack("<2Id", *hit) for hit in answer.hits)
    return struct.pack("<12I", len(tape), *lent, answer.outcome, answer.number, answer.side, len(answer.hits)) + tape + hits


def main():
    listing, written = sys.argv[1:] == ["--list"], []
    for n, (name, tape, lent, answer) in enumerate(records()):
        within = len(tape) <= LONGEST_TAPE and max(lent.floats1, lent.floats2) <= MOST_FLOATS and max(lent.table1, lent.table2) <= MOST_NUMBERS
        assert within and max(lent[4:]) <= MOST_PLACES, name
        written.append(record(tape, lent, answer))
        if listing:
            said = answer.hits if answer.outcome == model.ANSWERED else f"refused {answer.number} side {answer.side}"
            print(f"{n} {name}; {', '.join(map(str, lent))} lent: {said}")
    if not listing:
        (CRATE / "data").mkdir(parents=True, exist_ok=True)
        (CRATE / "data" / "calls").write_bytes(b"".join(written))


main()
