"""The operations on many geometries in one call.

Each of `a` and `b` is one geometry (against all of the other) or a sequence (element by element), or both are sequences with
`pairs=(places in a, places in b)`. Where an element is refused, the first Refusal is raised, with its `element`; refused="tell" gives the
answers of the others, and `answers.refusals` has each refusal by its element.

The operations by the least distance take a rule, 1 or 2, which is that of all elements.
"""
import ctypes
from array import array

from ._geometry import Blobs, is_one
from ._library import ANSWERED, LINE_BYTES, POINT_BYTES, REFUSED, AnswerArrays, BlobList, Elements, library
from ._refusal import Refusal
from ._rule import rule_number

numpy = None  # looked for when the first batch runs: to import it takes longer than a small job; False: not there

# as in include/viskorrel_batch.h
(DISTANCE, MAX_DISTANCE, INTERSECTS, DWITHIN, DFULLY_WITHIN, CLOSEST_POINT, SHORTEST_LINE, LONGEST_LINE, LINE_INTERPOLATE_POINT) = range(9)
VALUES = (DISTANCE, MAX_DISTANCE)
BYTES = {CLOSEST_POINT: POINT_BYTES, LINE_INTERPOLATE_POINT: POINT_BYTES, SHORTEST_LINE: LINE_BYTES, LONGEST_LINE: LINE_BYTES}
DONE, NO_MEMORY = 0, 1
CALL = 1 << 16  # elements in one call of C: between calls Ctrl-C is heard


class Answers:
    """The answers of a batch, element by element: numpy arrays where numpy is there, else arrays and lists of Python.

    values    distances: numbers, NaN where there is no answer (as where the answer is NaN: `outcomes` tells them apart);
              questions: truth values; points and lines: a list of GeoPackage blobs and None
    outcomes  0 nothing (to a question: no), 1 answered (yes), 2 refused
    numbers, sides  of the refusals, 0 elsewhere
    refusals  each Refusal by its element
    answers[k] is what the operation alone gives for element k; it raises the Refusal of an element that is refused.
    """

    def __init__(self, operation, count):
        self._operation = operation
        self._outcomes, self._numbers, self._sides = (array("B", bytes(count)) for _ in range(3))
        self._measures = array("d", bytes(8 * count)) if operation in VALUES else array("d")
        self._output = array("B", bytes(BYTES.get(operation, 0) * count))
        self.refusals = {}

    def __len__(self):
        return len(self._outcomes)

    def __getitem__(self, place):
        outcome = self._outcomes[place]
        if outcome == REFUSED:
            raise self.refusals[range(len(self))[place]]
        if self._operation in VALUES:
            return self._measures[place] if outcome == ANSWERED else None
        if self._operation in BYTES:
            return self._blob(range(len(self))[place])
        return outcome == ANSWERED

    def _blob(self, place):
        length = BYTES[self._operation]
        return self._output[length * place:length * (place + 1)].tobytes() if self._outcomes[place] == ANSWERED else None

    def addresses(self):
        parts = (self._outcomes, self._numbers, self._sides, self._measures, self._output)
        return AnswerArrays(*(part.buffer_info()[0] for part in parts))

    def finish(self, blobs):
        """Collects the refusals; blobs(k, side) is the geometry that one speaks of."""
        outcomes = self._outcomes.tobytes()
        at = outcomes.find(REFUSED)
        while at >= 0:
            number, side = self._numbers[at], self._sides[at]
            self.refusals[at] = Refusal(number, side, blobs(at, side) if side else None, element=at)
            at = outcomes.find(REFUSED, at + 1)
        self.outcomes, self.numbers, self.sides = (plain(part, "u1") for part in (self._outcomes, self._numbers, self._sides))
        if self._operation in VALUES:
            for place, outcome in enumerate(self._outcomes) if self._outcomes.count(ANSWERED) < len(self) else ():
                if outcome != ANSWERED:
                    self._measures[place] = float("nan")
            self.values = plain(self._measures, "f8")
        elif self._operation in BYTES:
            self.values = [self._blob(place) for place in range(len(self))]
        else:
            self.values = self.outcomes == ANSWERED if numpy else [outcome == ANSWERED for outcome in self._outcomes]


def plain(part, kind):
    return numpy.frombuffer(part, kind) if numpy and len(part) else numpy.empty(0, kind) if numpy else part


def elements(a, b, pairs):
    """How many elements there are, and their places in both lists (None: in order)."""
    if pairs is not None:
        first, second = (places(side) for side in pairs)
        if len(first) != len(second):
            raise ValueError(f"pairs have {len(first)} places in a and {len(second)} in b")
        return len(first), first, second
    counts = {len(blobs) for blobs, one in (a, b) if blobs is not None and not one}
    if len(counts) > 1:
        raise ValueError(f"a has {len(a[0])} elements and b has {len(b[0])}: as many are needed, or pairs")
    return (counts or {1}).pop(), None, None


def places(side):
    if numpy and isinstance(side, numpy.ndarray):
        if side.size and int(side.min()) < 0:
            raise IndexError("a place is below 0")
        return array("Q", numpy.ascontiguousarray(side, "u8").tobytes())
    try:
        return array("Q", side)
    except OverflowError:
        raise IndexError("a place is below 0") from None


def ready(geometries):
    """A list for C, and whether it is one geometry that stands for all elements."""
    if isinstance(geometries, Blobs):
        return geometries, False
    return Blobs(geometries), is_one(geometries)


def listed(blobs):
    return BlobList(ctypes.addressof(blobs.pointers), blobs.lengths.buffer_info()[0], len(blobs))


def check(result):
    """What C says of a whole call."""
    if result == NO_MEMORY:
        raise MemoryError
    if result != DONE:
        raise IndexError("a place of pairs is outside its sequence")


def as_numbers(number, count):
    """One number for all elements, or one for each."""
    if number is None:
        return array("d")
    if hasattr(number, "__len__"):
        if len(number) != count:
            raise ValueError(f"{len(number)} numbers for {count} elements")
        return array("d", number)
    return array("d", [number])


def look_for_numpy():
    global numpy
    if numpy is None:
        try:
            import numpy as found
        except ImportError:
            found = False
        numpy = found


def run(operation, a, b, number=None, pairs=None, refused="raise", rule=1):
    look_for_numpy()
    if refused not in ("raise", "tell"):
        raise ValueError('refused is "raise" or "tell"')
    rule = rule_number(rule)
    a = ready(a)
    b = ready(b) if b is not None else (None, True)
    count, first, second = elements(a, b, pairs)
    numbers = as_numbers(number, count)
    answers = Answers(operation, count)
    arrays, lists = answers.addresses(), [listed(blobs) if blobs is not None else None for blobs, _ in (a, b)]
    given = Elements(*(part.buffer_info()[0] if part is not None else None for part in (first, second, numbers)), len(numbers), 0, 0)
    for given.start in range(0, count, CALL):
        given.end = min(given.start + CALL, count)
        check(library().viskorrel_batch(
            operation, ctypes.addressof(lists[0]), ctypes.addressof(lists[1]) if lists[1] is not None else None, rule, ctypes.addressof(given),
            ctypes.addressof(arrays)))

    def spoken_of(element, side):
        (blobs, one), chosen = ((a, first), (b, second))[side - 1]
        return blobs[chosen[element] if chosen else 0 if one else element]

    answers.finish(spoken_of)
    if refused == "raise" and answers.refusals:
        raise next(iter(answers.refusals.values()))
    return answers


def on_two(name, operation):
    """The function of an operation on two geometries by the greatest distance."""
    def function(a, b, pairs=None, refused="raise"):
        return run(operation, a, b, None, pairs, refused)
    return named(name, function)


def by_rule(name, operation):
    """The function of an operation on two geometries by the least distance."""
    def function(a, b, pairs=None, refused="raise", rule=1):
        """rule is 1 or 2, for all elements."""
        return run(operation, a, b, None, pairs, refused, rule)
    return named(name, function)


def named(name, function):
    function.__name__ = function.__qualname__ = name
    return function


distance = by_rule("distance", DISTANCE)
max_distance = on_two("max_distance", MAX_DISTANCE)
intersects = by_rule("intersects", INTERSECTS)
closest_point = by_rule("closest_point", CLOSEST_POINT)
shortest_line = by_rule("shortest_line", SHORTEST_LINE)
longest_line = on_two("longest_line", LONGEST_LINE)


def dwithin(a, b, d, pairs=None, refused="raise", rule=1):
    """d is one number for all elements, or one for each; rule is 1 or 2, for all elements."""
    return run(DWITHIN, a, b, d, pairs, refused, rule)


def dfully_within(a, b, d, pairs=None, refused="raise"):
    """d is one number for all elements, or one for each."""
    return run(DFULLY_WITHIN, a, b, d, pairs, refused)


def line_interpolate_point(lines, fraction, refused="raise"):
    """fraction is one number for all lines, or one for each."""
    return run(LINE_INTERPOLATE_POINT, lines, None, fraction, None, refused)
