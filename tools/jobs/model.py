"""A job of the dig matcher (document 02, 5/13): a tape of commands, and the hits that it gives. Written from the request's words alone.

How two blobs are measured is not decided here: `measure(a, b)` gives the distance by rule 1, or None where there is none, or raises Refused
with a number and a side, a being side 1.
"""
import struct
from collections import namedtuple

ANSWERED, REFUSED = 1, 2
LOAD, TOLERANCE, MATCH, END = 1, 2, 3, 4
OPERANDS = {LOAD: struct.Struct("<BI"), TOLERANCE: struct.Struct("<d"), MATCH: struct.Struct("<BB"), END: struct.Struct("<")}

BELOW_0, NO_COMMAND, NOT_LOADED, TOO_MANY = 1, 20, 21, 22

Hit = namedtuple("Hit", "first second distance")
Answer = namedtuple("Answer", "outcome number side hits")  # hits in tape order, none where it is refused


class Refused(Exception):
    def __init__(self, number, side=0):
        super().__init__(number, side)
        self.number, self.side = number, side


def require(condition, number):
    if not condition:
        raise Refused(number)


def commands(tape):
    """Each command with its operands; of a load the bytes stand in the length's place. Nothing is read before the command before it is
    done with, and nothing behind the end."""
    at, code = 0, None
    while code != END:
        require(at < len(tape), NO_COMMAND)
        code, at = tape[at], at + 1
        require(code in OPERANDS, NO_COMMAND)
        operands = OPERANDS[code]
        require(len(tape) - at >= operands.size, NO_COMMAND)
        given, at = operands.unpack_from(tape, at), at + operands.size
        if code == LOAD:
            number, length = given
            require(len(tape) - at >= length, NO_COMMAND)
            given, at = (number, tape[at:at + length]), at + length
        yield code, given


def found(tape, measure):
    """The hits of a whole tape, however many."""
    blobs, tolerance, hits = {}, 0.0, []
    for code, given in commands(tape):
        if code == LOAD:
            number, blobs[given[0]] = given
        elif code == TOLERANCE:
            tolerance, = given
        elif code == MATCH:
            require(all(number in blobs for number in given), NOT_LOADED)
            require(not tolerance < 0, BELOW_0)
            distance = measure(*(blobs[number] for number in given))
            if distance is not None and distance <= tolerance:
                hits.append(Hit(*given, distance))
    return hits


def job(tape, lists, measure):
    """The answer to a job; `lists` are the lengths of the three lists that are lent."""
    try:
        hits = found(tape, measure)
        require(len(hits) <= min(lists), TOO_MANY)
    except Refused as refused:
        return Answer(REFUSED, refused.number, refused.side, [])
    return Answer(ANSWERED, 0, 0, hits)
