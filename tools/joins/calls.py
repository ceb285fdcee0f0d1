"""Calls of a join by hand, each with what documents 01 and 02 give for it. No blob is read here: who writes a blob knows its parts."""
import struct
from collections import namedtuple

from blobs import FLAG_M, FLAG_SRID, FLAG_Z, collection, face, geometry, gp, line, nested, point

Blob = namedtuple("Blob", "bytes own srid")      # the geometry's own bytes; the blob's SRID
Call = namedtuple("Call", "name a b lent expected")
Taken = namedtuple("Taken", "bytes")
Refused = namedtuple("Refused", "number side")

O, P, Q = (0.0, 0.0, 0.0), (1.0, 2.0, 3.0), (4.0, -5.0, 6.5)
POINT, OTHER = point(*P), point(*Q)


def bare(own, srid=0, trailing=b""):
    return Blob(own + trailing, own, srid)


def packed(own, srid=0, trailing=b"", **header):
    """Behind a GP header."""
    return Blob(gp(own, srid, **header) + trailing, own, srid)


def join_of(a, b):
    """The bytes of the request, one by one."""
    header = bytes.fromhex("47500001") + struct.pack("<I", a.srid % 2**32)
    return header + bytes.fromhex("01 EF030000 02000000") + a.own + b.own


def taken(name, a, b, lent=None):
    whole = join_of(a, b)
    return Call(name, a.bytes, b.bytes, len(whole) if lent is None else lent, Taken(whole))


def refused(name, a, b, number, side=0, lent=400):
    return Call(name, a.bytes, b.bytes, lent, Refused(number, side))


# ---- Every kind, in every spelling of its dimensions ----

SPELLINGS = [  # what is added to a kind, and how many ordinates there are
    ("ISO Z", 1000, 3), ("ISO ZM", 3000, 4), ("flag Z", FLAG_Z, 3), ("flags Z and M", FLAG_Z + FLAG_M, 4),
    ("flag Z on ISO M, walked as M", FLAG_Z + 2000, 3), ("flag M on ISO Z, walked as Z", FLAG_M + 1000, 3),
    ("flag Z on 4000, which says nothing", FLAG_Z + 4000, 3),
    ("flags Z and M on ISO ZM, bits that say nothing", FLAG_Z + FLAG_M + 0x1FFF0000 + 3000, 4)]
KINDS = [1, 2, 3, 4, 5, 6, 7, 15, 16, 17]


def of_kind(kind, added, ordinates, order, srid):
    c = [tuple(float(10 * n + k) for k in range(ordinates)) for n in range(3)]
    more = {"code": kind + added, "order": order, "srid": srid}
    if kind == 1:
        return point(*c[0], **more)
    if kind == 2:
        return line(*c, **more)
    if kind in (3, 17):
        return face(c, c[:2], **more)
    return collection(point(*c[1], code=1 + added, order=order), line((1.0, 2.0), code=2), **more)


def kinds():
    for kind in KINDS:
        for name, added, ordinates in SPELLINGS:
            for order in "<>":
                one = bare(of_kind(kind, added, ordinates, order, None))
                yield taken(f"kind {kind}, {name}, order {order}, first", one, bare(POINT))
                other = bare(of_kind(kind, added, ordinates, order, 31467), 31467)
                yield taken(f"kind {kind}, {name}, order {order}, with its SRID, second", packed(POINT, 31467), other)


# ---- What is dropped, and what is kept ----


def ignored():
    trailing = [b"", b"\xff", POINT]
    for indicator in range(5):
        for order in "<>":
            for empty in (0, 0x10):
                for n, more in enumerate(trailing):
                    one = packed(OTHER, 4326, more, indicator=indicator, order=order, flags=empty)
                    name = f"indicator {indicator}, header {order}, flags {empty:02x}, {len(more)} bytes behind it"
                    yield taken(f"{name}, first", one, packed(POINT, 4326)) if n % 2 else taken(f"{name}, second", packed(POINT, 4326), one)
            both = packed(line(O, P, order=">"), -1, b"GP\0\1", indicator=indicator, order=order)
            yield taken(f"both with indicator {indicator}, header {order}, and bytes behind", both, both)
    for name, inner in [
            ("NaNs of any payload", geometry(1002, struct.pack("<I6Q", 2, 0x7FF0000000000001, 0xFFF8 << 48, 2**63 - 1, 2**63, 0, 1))),
            ("infinities", point(float("inf"), float("-inf"), -0.0, order=">")),
            ("SRIDs in members", collection(point(*P, srid=4326), collection(line(O, P, srid=-1, order=">"), srid=7), order=">")),
            ("an SRID in the top, and others inside", collection(point(*P, srid=1, code=FLAG_Z | 1), srid=2)),
            ("mixed orders and dimensions", collection(
                point(1.0, 2.0, code=1, order=">"), point(1.0, 2.0, 9.0, code=2001), collection(order=">", code=15)))]:
        yield taken(f"{name}, kept, first", packed(inner, 4326, b"\0"), packed(POINT, 4326))
        yield taken(f"{name}, kept, second", packed(POINT, -7, order=">"), packed(inner, -7, indicator=1))
        yield taken(f"{name}, kept, both", packed(inner, 0), packed(inner, 0))


# ---- SRIDs ----


def inner_srid(srid, order="<"):
    return point(*P, code=FLAG_Z | 1, order=order, srid=srid)


WITH_SRID = [
    ("bare, none", bare(POINT)),
    ("bare, SRID 0", bare(inner_srid(0))),
    ("bare, 4326", bare(inner_srid(4326), 4326)),
    ("bare, 4326, big-endian", bare(inner_srid(4326, ">"), 4326)),
    ("bare, the bytes of 4326 the other way", bare(inner_srid(0xE6100000, ">"), 0xE6100000)),
    ("bare, 4326 in a member only", bare(collection(inner_srid(4326)))),
    ("bare, -1", bare(inner_srid(-1), -1)),
    ("GP 0", packed(OTHER)),
    ("GP 0 over 4326", packed(inner_srid(4326))),
    ("GP 4326", packed(OTHER, 4326)),
    ("GP 4326, big-endian", packed(OTHER, 4326, order=">")),
    ("GP, the bytes of 4326 the other way", packed(OTHER, 0xE6100000, order=">")),
    ("GP 4326 over 25832", packed(inner_srid(25832, ">"), 4326)),
    ("GP -1", packed(OTHER, -1, order=">")),
    ("GP least", packed(OTHER, -(2**31))),
    ("GP greatest", packed(OTHER, 2**31 - 1, order=">")),
    ("GP 4327", packed(OTHER, 4327))]


def srids():
    for first, a in WITH_SRID:
        for second, b in WITH_SRID:
            name = f"{first}; {second}"
            yield taken(name, a, b) if (a.srid - b.srid) % 2**32 == 0 else refused(name, a, b, 18)


# ---- Levels ----


def levels():
    for one in (0, 1, 30, 31, 32):
        for two in (0, 1, 30, 31, 32):
            a, b = bare(nested(POINT, one)), bare(nested(OTHER, two, order=">"))
            name = f"levels {one} and {two}"
            yield taken(name, a, b) if max(one, two) <= 31 else refused(name, a, b, 19, lent=1000)
    shapes = [
        ("an empty collection", lambda level: nested(collection(order=">"), level)),
        ("an empty face", lambda level: nested(face(), level)),
        ("an empty line, with SRIDs above it", lambda level: nested(line(), level, srid=5)),
        ("a point before a shallow one", lambda level: collection(nested(POINT, level - 1), POINT)),
        ("a point behind a shallow one", lambda level: collection(POINT, nested(POINT, level - 1), order=">")),
        ("points of a surface", lambda level: nested(collection(POINT, code=1015), level - 1))]
    for name, shape in shapes:
        for level in (30, 31, 32, 33):
            one, header = shape(level), {"srid": 5} if "SRIDs" in name else {}
            for side in (1, 2):
                sides = [packed(POINT, **header), packed(POINT, **header)]
                sides[side - 1] = packed(one, **header)
                told = f"{name} at level {level}, side {side}"
                if level < 32:
                    yield taken(told, *sides)
                else:
                    yield refused(told, *sides, *((19, 0) if level == 32 else (12, side)), lent=1000)
    yield from chain()


def chain():
    """A join is a blob: joined again and again it gets a level deeper each time, up to 32."""
    whole, other = bare(POINT), bare(line())
    for times in range(1, 33):
        again = taken(f"joined {times} times", whole, other)
        if times in (1, 2, 16, 31, 32):
            yield again
        whole = packed(again.expected.bytes[8:])
    yield refused("joined 33 times", whole, other, 19, lent=1000)
    yield refused("joined 33 times, the other way", other, whole, 19, lent=1000)


# ---- Empty ones ----

EMPTY = [
    line(), line(order=">"), face(), face((), ()), face(code=1017), face((), code=1017, order=">"), collection(line(), face(), collection()),
    *(collection(code=1000 + kind, order=order) for kind in (4, 5, 6, 7, 15, 16) for order in "<>")]


def empties():
    for n, inner in enumerate(EMPTY):
        yield taken(f"empty {n} twice", bare(inner), packed(inner))
        yield taken(f"empty {n} first", packed(inner, 3), packed(POINT, 3))
        yield taken(f"empty {n} second", bare(POINT), bare(inner))


# ---- Outputs ----


def outputs():
    pairs = [
        ("two points", bare(POINT), bare(OTHER)), ("two empty collections", bare(collection()), bare(collection(order=">"))),
        ("a point and a line, bytes behind both", packed(POINT, 9, b"\1\2", indicator=4), packed(line(O, P, Q), 9, b"\3" * 70)),
        ("32 levels", bare(nested(POINT, 31)), bare(nested(collection(), 31)))]
    for name, a, b in pairs:
        size = len(join_of(a, b))
        for lent in sorted({0, 1, 8, 16, 17, 18, size - 17, size - 2, size - 1}):
            yield refused(f"{name}, {lent} of {size} bytes", a, b, 16, lent=lent)
        for lent in (size, size + 1, size + 2, size + 40, len(a.bytes) + len(b.bytes) + 17):
            yield taken(f"{name}, {lent} of {size} bytes", a, b, lent)


# ---- The order of refusals ----

TWO = struct.pack("<BI", 2, 1)  # byte order 2, and a type without Z


def faulty_headers(srid):
    """By number: blobs at fault before the walk, each with as many of the later faults as it can have."""
    def header(version, flags):
        return struct.pack("<2sBBI", b"GP", version, flags, srid)
    plain = header(0, 1)
    return [
        (3, header(1, 0xFF)[:7]), (4, header(1, 0xFF)), (5, header(0, 0xFF)), (6, header(0, 0xDF)), (7, header(0, 0x1F)),
        (8, header(0, 9) + bytes(63)), (9, plain + TWO[:4]), (10, plain + TWO), (13, plain + geometry(8, b"")),
        (13, plain + geometry(1, bytes(15))), (9, b""), (10, TWO), (13, geometry(FLAG_SRID + 2000, b""))]


def faulty_walks(srid):
    """By number: blobs at fault in the walk, each with as many of the later faults as it can have."""
    def among(member):
        return collection(POINT, member)
    inner = [
        (12, nested(b"", 33)), (12, nested(TWO, 33)), (9, among(TWO[:4])), (10, among(struct.pack("<BI", 2, FLAG_SRID + 8))),
        (9, among(geometry(FLAG_SRID + 8, bytes(3)))), (11, geometry(1008, b"")), (11, among(geometry(8, b"\1"))),
        (9, geometry(1002, bytes(3))), (9, line(O, P)[:-1]), (9, geometry(1002, struct.pack("<I", 2**32 - 1) + bytes(48))),
        (9, collection(POINT)[:-1])]
    return [(number, gp(one, srid)) for number, one in inner]


HEADER, WALK, SOUND = 1, 2, 3  # in the order in which they are looked at, each of side 1 before side 2


def orders():
    """Each fault of a blob against each of the other; then 18, 19 and 16."""
    faults = [(number, HEADER, Blob(blob, b"", 4)) for number, blob in faulty_headers(4)]
    faults += [(number, WALK, Blob(blob, b"", 4)) for number, blob in faulty_walks(4)]
    sound = [packed(POINT, 4), packed(POINT, 5), packed(nested(POINT, 32), 4)]  # with the others it would be taken, 18 or 19
    for n, (number, place, blob) in enumerate(faults):
        for m, (other, its_place, partner) in enumerate([*((None, SOUND, one) for one in sound), *faults]):
            first, name = place <= its_place, f"fault {n} ({number}) against {m} ({other})"
            yield refused(name, blob, partner, number if first else other, 1 if first else 2, lent=0)
        for m, partner in enumerate(sound):
            yield refused(f"sound {m} against fault {n} ({number})", partner, blob, number, 2, lent=(0, 400)[n % 2])
    yield from last_three()


def last_three():
    for too_deep in (None, 1, 2):
        for srid in (4, 5):
            for short in (False, True):
                a, b = packed(nested(POINT, 32 * (too_deep == 1)), 4), packed(nested(POINT, 32 * (too_deep == 2)), srid)
                name = f"SRIDs 4 and {srid}, side {too_deep} too deep, {'no' if short else 'enough'} output"
                lent = 0 if short else 17 + len(a.own) + len(b.own)
                if srid == 4 and not too_deep and not short:
                    yield taken(name, a, b)
                else:
                    yield refused(name, a, b, 18 if srid == 5 else 19 if too_deep else 16, lent=lent)


# ---- Beginnings of blobs ----

FIRST_POINT, FIRST_LINE, FIRST_FACE = point(*P, order=">"), line(O, P, srid=4326), face((O, P, Q), (), order=">")
BEGINNINGS = [  # a blob, its geometry, and the refusal from each length on, None for none
    ("GP point", gp(POINT, 4), POINT, {0: 9, 2: 3, 8: 9, 37: None}),
    ("GP, indicator 1", gp(FIRST_POINT, 4, order=">", indicator=1), FIRST_POINT, {0: 9, 2: 3, 8: 8, 40: 9, 69: None}),
    ("GP over a line with an SRID", gp(FIRST_LINE, 4), FIRST_LINE, {0: 9, 2: 3, 8: 9, 69: None}),
    ("no Z", gp(point(1.0, 2.0, code=1), 4), b"", {0: 9, 2: 3, 8: 9, 13: 13}),
    ("a face", gp(FIRST_FACE, 4), FIRST_FACE, {0: 9, 2: 3, 8: 9, 97: None}),
    ("an unknown kind in a member", gp(collection(POINT, geometry(9, b"\0")), 4), b"", {0: 9, 2: 3, 8: 9, 51: 11})]


def beginnings():
    """On both sides where the refusal changes, else on one of them."""
    good = packed(OTHER, 4)
    for name, blob, own, starts in BEGINNINGS:
        for length in range(len(blob) + 1):
            now = starts[max(start for start in starts if start <= length)]
            cut = Blob(blob[:length], own, 4)
            for side in (1, 2) if length in starts or length + 1 in starts else (1 + length % 2,):
                sides = (cut, good) if side == 1 else (good, cut)
                told = f"{name}: first {length} bytes, side {side}"
                yield taken(told, *sides) if now is None else refused(told, *sides, now, side)


def calls():
    fixture = taken("two points, SRID 25832", packed(POINT, 25832), packed(OTHER, 25832, b"\0", order=">", indicator=1))
    return [fixture, *kinds(), *ignored(), *srids(), *levels(), *empties(), *outputs(), *orders(), *beginnings()]
