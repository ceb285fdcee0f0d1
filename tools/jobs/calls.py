"""Jobs by hand, each with what documents 01 and 02 give for it. No tape and no blob is read here: who writes a tape knows its hits."""
import math
from collections import namedtuple

from tapes import END, FAULTY, KNOWN, NAN, O, collection, gp, line, load, match, nested, point, points, tolerance, tolerance_bits

Lent = namedtuple("Lent", "floats1 table1 floats2 table2 first second distances", defaults=[64, 32, 64, 32, 8, 8, 8])
Call = namedtuple("Call", "name tape lent expected")
Hits = namedtuple("Hits", "hits")
Refused = namedtuple("Refused", "number side")

P3, P4, AWAY = point(3.0), point(0.0, 4.0), point(0.0, 0.0, 1000.0)
FOUND = [load(7, O), load(9, P3), tolerance(3.0), match(7, 9), END]  # a hit: 7, 9, 3 metres
UNKNOWN = [code for code in range(256) if code not in KNOWN]


def lists(first, second, distances):
    return Lent()._replace(first=first, second=second, distances=distances)


def taken(name, parts, *hits, lent=Lent()):
    return Call(name, b"".join(parts), lent, Hits(list(hits)))


def refused(name, parts, number, side=0, lent=Lent()):
    return Call(name, b"".join(parts), lent, Refused(number, side))


# ---- The tape ----


def ends():
    """Every beginning of a tape, and what stands behind its end."""
    whole = b"".join(FOUND)
    for length in range(len(whole)):
        yield refused(f"the first {length} of {len(whole)} bytes", [whole[:length]], 20)
    for name, parts in [("load", [load(7, O)]), ("an empty load", [load(0, b"")]), ("tolerance", [tolerance(1.0)]), ("match", [load(7, O), match(7, 7)])]:
        command = b"".join(parts)
        for length in range(len(command) + 1):
            yield refused(f"{name}, {length} of {len(command)} bytes", [command[:length]], 20)
    yield taken("the end alone", [END])
    for more in (b"\0", END, b"\xff" * 40, bytes(range(256)), match(1, 2), load(7, O)[:9], match(7, 9) + END, tolerance(-1.0) + match(7, 9)):
        yield taken(f"{len(more)} bytes {more[:9].hex()} behind the end", [END, more])
        yield taken(f"{len(more)} bytes {more[:9].hex()} behind the end of a job", [*FOUND, more], (7, 9, 3.0))


def unknown():
    for code in UNKNOWN:
        yield refused(f"command {code}", [bytes([code]), END], 20)
        if code in (0, 5, 6, 7, 8, 128, 255):
            yield refused(f"command {code} after a hit", [*FOUND[:-1], bytes([code]), bytes(12), END], 20)


def lengths():
    for more in (1, 2, 255, 256, 2**16, 2**31, 2**32 - 1 - len(O)):
        given = load(7, O)
        claimed = given[:2] + (len(O) + more).to_bytes(4, "little") + given[6:]
        yield refused(f"a load of {more} bytes more than there are", [claimed], 20)
        if more < 2**16:
            yield taken(f"and than there are geometry's, {more}", [claimed, bytes(more), match(7, 7), END], (7, 7, 0.0))
    yield refused("a load that takes the end", [b"\1\7\1\0\0\0", END], 20)
    yield taken("a load that takes an end, and another", [b"\1\7\1\0\0\0", END, END])
    yield taken("a load of commands, which are not run", [load(1, match(5, 6) + bytes([9]) + END), END])
    yield taken("a long load", [load(1, bytes(3000)), END])


# ---- Loads and matches ----


def numbers():
    for first in (0, 1, 127, 128, 254, 255):
        for second in (0, 1, 127, 128, 254, 255):
            if first != second:
                yield taken(f"numbers {first} and {second}", [load(first, O), load(second, P3), tolerance(3.0), match(first, second), END], (first, second, 3.0))
            else:
                yield taken(f"number {first} with itself", [load(first, P3), match(first, first), END], (first, first, 0.0))
    yield taken("either way round", [load(7, O), load(9, P3), tolerance(3.0), match(9, 7), match(7, 9), END], (9, 7, 3.0), (7, 9, 3.0))
    for times in (2, 3, 8):
        yield taken(f"matched {times} times", [*FOUND[:-1], *[match(7, 9)] * (times - 1), END], *[(7, 9, 3.0)] * times)
    every = [load(number, point(float(number))) for number in range(0, 256, 5)]
    yield taken("52 numbers", [*every, tolerance(5.0), match(0, 5), match(250, 255), match(5, 15), match(100, 95), END],
                (0, 5, 5.0), (250, 255, 5.0), (100, 95, 5.0))


def replaced():
    yield taken("loaded again", [load(7, AWAY), *FOUND], (7, 9, 3.0))
    yield taken("loaded again before a match", [*FOUND[:3], load(7, AWAY), match(7, 9), END])
    yield taken("loaded again between matches", [*FOUND[:4], load(7, P3), match(7, 9), load(9, O), match(7, 9), END], (7, 9, 3.0), (7, 9, 0.0), (7, 9, 3.0))
    longer = points((5.0, 0.0, 0.0), (1.0, 0.0, 0.0))
    yield taken("loaded again, longer", [load(7, O), load(7, longer), load(9, O), tolerance(2.0), match(7, 9), END], (7, 9, 1.0))
    for number, blob in FAULTY:
        yield taken(f"{number} never matched, {len(blob)} bytes", [load(8, blob), *FOUND], (7, 9, 3.0))
        yield taken(f"{number} replaced, {len(blob)} bytes", [load(7, blob), *FOUND], (7, 9, 3.0))
        yield taken(f"{number} loaded after the match, {len(blob)} bytes", [*FOUND[:4], load(7, blob), END], (7, 9, 3.0))
        yield refused(f"{number} in the place of another, {len(blob)} bytes", [*FOUND[:4], load(7, blob), match(7, 9), END], number, 1)


def spellings():
    for name, blob in [("GP", gp(P3)), ("GP, big-endian", gp(P3, flags=0)), ("an envelope", gp(P3, flags=3, envelope=bytes(32))),
                       ("empty flag", gp(P3, flags=0x11)), ("big-endian", point(3.0, order=">")), ("Z by flag", point(3.0, code=0x80000001)), ("trailing bytes", P3 + b"\4\4\4"),
                       ("a collection", nested(P3, 32)), ("many points", points((90.0, 0.0, 0.0), (3.0, 0.0, 0.0), (4.0, 0.0, 0.0)))]:
        yield taken(f"{name}, first", [load(1, blob), load(2, O), tolerance(3.0), match(1, 2), END], (1, 2, 3.0))
        yield taken(f"{name}, second", [load(1, O), load(2, blob), tolerance(3.0), match(1, 2), END], (1, 2, 3.0))


# ---- Tolerances ----


def tolerances():
    yield taken("0 from the start", [load(7, O), load(9, P3), match(7, 9), match(7, 7), END], (7, 7, 0.0))
    for name, given, hit in [("3", 3.0, True), ("just under 3", math.nextafter(3.0, 0.0), False), ("just over 3", math.nextafter(3.0, 4.0), True),
                             ("infinity", math.inf, True), ("the greatest", 1.7976931348623157e308, True), ("0", 0.0, False), ("-0", -0.0, False),
                             ("the least", 5e-324, False)]:
        yield taken(f"tolerance {name}", [*FOUND[:2], tolerance(given), match(7, 9), END], *[(7, 9, 3.0)] * hit)
        yield taken(f"tolerance {name}, distance 0", [*FOUND[:2], tolerance(given), match(9, 9), END], (9, 9, 0.0))
    for pattern in (0x7FF8000000000000, 0xFFF8000000000000, 0x7FF0000000000001, 0xFFFFFFFFFFFFFFFF, 0x7FFDEADBEEF00001):
        nan = tolerance_bits(pattern)
        yield taken(f"tolerance NaN {pattern:X}", [load(7, O), nan, match(7, 7), END])
        yield taken(f"tolerance NaN {pattern:X}, then 1", [load(7, O), nan, match(7, 7), tolerance(1.0), match(7, 7), END], (7, 7, 0.0))
        yield refused(f"tolerance NaN {pattern:X}, and a blob at fault", [load(7, b""), nan, match(7, 7), END], 9, 1)
        yield refused(f"tolerance NaN {pattern:X}, and none loaded", [nan, match(7, 7), END], 21)
    for below in (-5e-324, -1.0, -math.inf, -1e300):
        yield refused(f"tolerance {below}", [load(7, O), tolerance(below), match(7, 7), END], 1)
        yield refused(f"tolerance {below}, both blobs at fault", [load(7, b""), tolerance(below), match(7, 7), END], 1)
        yield refused(f"tolerance {below}, not loaded", [load(7, O), tolerance(below), match(7, 8), END], 21)
        yield refused(f"tolerance {below}, a hit before", [*FOUND[:4], tolerance(below), match(7, 9), END], 1)
        yield refused(f"tolerance {below}, the match cut off", [load(7, O), tolerance(below), match(7, 7)[:2]], 20)
        yield refused(f"tolerance {below}, then a command that is none", [load(7, O), tolerance(below), b"\0"], 20)
        yield refused(f"tolerance {below}, matched, then a command that is none", [load(7, O), tolerance(below), match(7, 7), b"\0"], 1)
        yield taken(f"tolerance {below}, never met", [load(7, O), tolerance(below), END])
        yield taken(f"tolerance {below}, then 0", [load(7, O), tolerance(below), tolerance(0.0), match(7, 7), END], (7, 7, 0.0))
        yield taken(f"tolerance {below} after the match", [load(7, O), match(7, 7), tolerance(below), END], (7, 7, 0.0))
    yield taken("the tolerance at the match counts", [load(1, O), load(2, P3), load(3, P4), tolerance(3.5), match(1, 2), match(1, 3), tolerance(4.0), match(1, 3),
                                                      tolerance(2.0), match(1, 2), END], (1, 2, 3.0), (1, 3, 4.0))


def distances():
    yield taken("3, 4, 12", [load(1, O), load(2, point(3.0, 4.0, 12.0)), tolerance(13.0), match(1, 2), END], (1, 2, 13.0))
    yield taken("an infinite one", [load(1, O), load(2, point(1e200)), tolerance(math.inf), match(1, 2), END], (1, 2, math.inf))
    yield taken("not within the greatest", [load(1, O), load(2, point(1e200)), tolerance(1.7976931348623157e308), match(1, 2), END])
    yield taken("one that vanishes", [load(1, O), load(2, point(1e-200)), match(1, 2), END], (1, 2, 0.0))
    for name, blob in [("NaN", NAN), ("NaN in z", point(0.0, 0.0, math.nan)), ("a line of one", line((0.0, 0.0, 0.0))), ("an empty line", line()),
                       ("an empty collection", collection()), ("an infinite place", point(math.inf))]:
        parts = [load(1, blob), load(2, O), tolerance(math.inf)]
        hits = [(1, 2, math.inf), (2, 1, math.inf)] if name == "an infinite place" else []
        yield taken(f"{name}: none, or NaN", [*parts, match(1, 1), END])
        yield taken(f"{name}, either way round", [*parts, match(1, 2), match(2, 1), END], *hits)


# ---- Refusals ----


def not_loaded():
    for name, parts in [("nothing loaded", [match(7, 9)]), ("the first", [load(9, O), match(7, 9)]), ("the second", [load(7, O), match(7, 9)]),
                        ("itself", [load(7, O), match(9, 9)]), ("the second, the first at fault", [load(7, b""), match(7, 9)]),
                        ("the first, the second at fault", [load(9, b"GP"), match(7, 9)]), ("loaded too late", [load(7, O), match(7, 9), load(9, O)]),
                        ("after a hit", [*FOUND[:4], match(7, 8)])]:
        for rest in ([END], [], [b"\0"], [b"\xff" * 9], [match(7, 9)[:2]]):
            yield refused(f"not loaded: {name}, then {len(b''.join(rest))} bytes {b''.join(rest)[:4].hex()}", [*parts, *rest], 21)


def measuring():
    for number, blob in FAULTY:
        for side in (1, 2):
            parts = [load(side, blob), load(3 - side, O), tolerance(1.0), match(1, 2)]
            yield refused(f"{number} on side {side}, {len(blob)} bytes", [*parts, END], number, side)
            yield refused(f"{number} on side {side}, {len(blob)} bytes, then a command that is none", [*parts, b"\0"], number, side)
            yield refused(f"{number} on side {side}, {len(blob)} bytes, after a hit", [load(1, O), match(1, 1), *parts, END], number, side)
            yield refused(f"{number} on side {side}, {len(blob)} bytes, lists of no places", [load(1, O), match(1, 1), *parts, END], number, side, lists(0, 0, 0))
        yield refused(f"{number} on both sides", [load(5, blob), match(5, 5), END], number, 1)
    header, walk = b"GP", collection(O)[:-1]
    yield refused("side 2's header before side 1's walk", [load(1, walk), load(2, header), match(1, 2), END], 3, 2)
    yield refused("side 1's walk before side 2's", [load(1, walk), load(2, nested(O, 33)), match(1, 2), END], 9, 1)


def workspaces():
    """A place of each kind under what a blob takes, on either side; of four points: 16 floats, 8 numbers."""
    four = points(*[(float(x), 0.0, 0.0) for x in range(4)])
    parts = [load(1, four), load(2, four), match(1, 2), END]
    exact = Lent(16, 8, 16, 8, 1, 1, 1)
    yield taken("exactly enough", parts, (1, 2, 0.0), lent=exact)
    for field, side in (("floats1", 1), ("table1", 1), ("floats2", 2), ("table2", 2)):
        for less in (1, getattr(exact, field)):
            short = exact._replace(**{field: getattr(exact, field) - less})
            yield refused(f"{field} {less} under", parts, 15, side, short)
            yield refused(f"{field} {less} under, no place in the lists", parts, 15, side, short._replace(first=0))
            yield refused(f"{field} {less} under, then a command that is none", [*parts[:3], b"\0"], 15, side, short)
            yield taken(f"{field} {less} under, never matched", [*parts[:2], END], lent=short)
            fault = [load(1, b"") if side == 2 else parts[0], load(2, b"") if side == 1 else parts[1], *parts[2:]]
            yield refused(f"{field} {less} under, the other side at fault", fault, 9, 3 - side, short)
    none = Lent(0, 0, 0, 0, 0, 0, 0)
    yield refused("nothing lent", parts, 15, 1, none)
    yield refused("nothing lent for side 2", parts, 15, 2, Lent(16, 8, 0, 0, 0, 0, 0))
    yield taken("nothing lent, nothing matched", [*parts[:2], END], lent=none)
    yield taken("nothing lent, nothing to measure", [load(1, collection()), match(1, 1), END], lent=none)
    yield refused("nothing lent, tape cut off", parts[:3], 15, 1, none)
    yield refused("nothing lent, tape of nothing", [], 20, 0, none)


# ---- Lists ----


def full():
    for hits in (0, 1, 2, 3, 8, 31, 64):
        parts = [load(1, O), load(2, P3), *[match(1, 1)] * hits, match(1, 2)]
        found = [(1, 1, 0.0)] * hits
        for place in range(3):
            for length in sorted({0, 1, hits - 1, hits, hits + 1, 64} - {-1, 65}):
                lent = lists(*[length if n == place else 64 for n in range(3)])
                name = f"{hits} hits, list {place + 1} has {length} places"
                if length >= hits:
                    yield taken(name, [*parts, END], *found, lent=lent)
                else:
                    yield refused(name, [*parts, END], 22, 0, lent)
                    yield refused(f"{name}, then a command that is none", [*parts, b"\0", END], 20, 0, lent)
                    yield refused(f"{name}, no end", parts, 20, 0, lent)
                    yield refused(f"{name}, then none loaded", [*parts, match(1, 3), END], 21, 0, lent)
                    yield refused(f"{name}, then a tolerance below 0", [*parts, tolerance(-1.0), match(1, 1), END], 1, 0, lent)
                    yield refused(f"{name}, then a blob at fault", [*parts, load(2, b"GP"), match(1, 2), END], 3, 2, lent)
    yield taken("lists of unlike lengths", [load(1, O), match(1, 1), match(1, 1), END], (1, 1, 0.0), (1, 1, 0.0), lent=lists(2, 3, 4))
    yield refused("65 hits in 64 places", [load(1, O), *[match(1, 1)] * 65, END], 22, 0, lists(64, 64, 64))


def calls():
    for part in (ends, unknown, lengths, numbers, replaced, spellings, tolerances, distances, not_loaded, measuring, workspaces, full):
        yield from part()
