"""Hand-made and damaged blobs, with what document 01 gives for each, and document 02 (1/13) for m.

A blob is written in words: bytes in hexadecimal, `u<5` or `u>5` for a 32-bit number in little- or
big-endian order, `d<0.5` or `d>0.5` for a double, `p<7ff8000000000001` for a double by its pattern.
What is expected is refused(NUMBER), or read(SRID, (KIND, "x y z, x y z m"), ..), run by run; an m that is not named is 0.
"""
import struct


def word_bytes(word):
    if word[0] == "u":
        return struct.pack(word[1] + "I", int(word[2:], 0))
    if word[0] == "d" and word[1] in "<>":
        return struct.pack(word[1] + "d", float(word[2:]))
    if word[0] == "p":
        return struct.pack(word[1] + "Q", int(word[2:], 16))
    return bytes.fromhex(word)


def blob_of(text):
    return b"".join(word_bytes(word) for word in text.split())


def refused(number):
    return ("refused", number)


def read(srid, *runs):
    def coordinate(text):
        x, y, z, m = [float(v) for v in text.split() + ["0"]][:4]
        return (x, y, z, m)

    def coordinates(text):
        return [coordinate(c) for c in text.split(",")]

    return ("read", srid, [(kind, coordinates(text)) for kind, text in runs])


# ---- pieces that many blobs share

POINT = "01 u<1001 d<1 d<2 d<3 "
POINT_BIG = "00 u>1001 d>4 d>5 d>6 "
POINT_XY = "01 u<1 d<7 d<8 "
POINT_M = "00 u>2001 d>9 d>10 d>11 "
LINE = "01 u<1002 u<2 d<0 d<0 d<0 d<3 d<4 d<12 "
HALF_LINE = "01 u<1002 u<2 d<0 d<0 d<0 "
TRIANGLE = "01 u<1017 u<1 u<3 d<0 d<0 d<0 d<4 d<0 d<0 d<0 d<4 d<0 "
LEVEL = "01 u<1007 u<1 "
LEVEL_BIG = "00 u>0x20000007 u>5 u>1 "

ONE = (1, "1 2 3")
ONE_BIG = (1, "4 5 6")
ONE_XY = (1, "7 8 0")
ONE_M = (1, "9 10 0 11")
TWO = (2, "0 0 0, 3 4 12")
THREE = (17, "0 0 0, 4 0 0, 0 4 0")

# ---- the GP header: 3 to 8, in this order

HEADERS = [
    ("empty", "", refused(9)),
    ("only G", "47", refused(9)),
    ("only GP", "4750", refused(3)),
    ("seven bytes", "47500001E61000", refused(3)),
    ("seven bytes, every other fault too", "475001FF000000", refused(3)),
    ("G and no P is bare WKB", "4751000100000000 " + POINT, refused(10)),
    ("P and no G is bare WKB", "0050000100000000 " + POINT, refused(11)),
    ("version 1", "4750010100000000 " + POINT, refused(4)),
    ("version 255", "4750FF0100000000 " + POINT, refused(4)),
    ("version 1 and every flag", "475001FF00000000", refused(4)),
    ("extended", "4750002100000000 " + POINT, refused(5)),
    ("extended, big-endian", "4750002000000000 " + POINT, refused(5)),
    ("every flag", "475000FF00000000", refused(5)),
    ("reserved 40", "4750004100000000 " + POINT, refused(6)),
    ("reserved 80", "4750008100000000 " + POINT, refused(6)),
    ("reserved C0", "475000C100000000 " + POINT, refused(6)),
    ("every flag but extended", "475000DF00000000", refused(6)),
    ("indicator 5", "4750000B00000000 " + "d<0 " * 8 + POINT, refused(7)),
    ("indicator 6", "4750000D00000000 " + "d<0 " * 8 + POINT, refused(7)),
    ("indicator 7", "4750000F00000000 " + "d<0 " * 8 + POINT, refused(7)),
    ("indicator 7, empty, nothing after", "4750001E00000000", refused(7)),
    ("indicator 0", "4750000100000000 " + POINT, read(0, ONE)),
    ("indicator 0, nothing after", "4750000100000000", refused(9)),
    ("indicator 1", "4750000300000000 " + "d<0 " * 4 + POINT, read(0, ONE)),
    ("indicator 1, a byte short", "4750000300000000 " + "d<0 " * 3 + "00" * 7, refused(8)),
    ("indicator 1, nothing after", "4750000300000000 " + "d<0 " * 4, refused(9)),
    ("indicator 2", "4750000500000000 " + "d<0 " * 6 + POINT, read(0, ONE)),
    ("indicator 2, a byte short", "4750000500000000 " + "d<0 " * 5 + "00" * 7, refused(8)),
    ("indicator 2, nothing after", "4750000500000000 " + "d<0 " * 6, refused(9)),
    ("indicator 3", "4750000700000000 " + "d<0 " * 6 + POINT, read(0, ONE)),
    ("indicator 3, a byte short", "4750000700000000 " + "d<0 " * 5 + "00" * 7, refused(8)),
    ("indicator 3, nothing after", "4750000700000000 " + "d<0 " * 6, refused(9)),
    ("indicator 4", "4750000900000000 " + "d<0 " * 8 + POINT, read(0, ONE)),
    ("indicator 4, a byte short", "4750000900000000 " + "d<0 " * 7 + "00" * 7, refused(8)),
    ("indicator 4, nothing after", "4750000900000000 " + "d<0 " * 8, refused(9)),
    ("indicators 0 to 4 in a big-endian header: 0", "47500000000010E6 " + POINT, read(4326, ONE)),
    ("1, big-endian", "47500002000010E6 " + "d>0 " * 4 + POINT, read(4326, ONE)),
    ("2, big-endian", "47500004000010E6 " + "d>0 " * 6 + POINT, read(4326, ONE)),
    ("3, big-endian", "47500006000010E6 " + "d>0 " * 6 + POINT, read(4326, ONE)),
    ("4, big-endian", "47500008000010E6 " + "d>0 " * 8 + POINT_BIG, read(4326, ONE_BIG)),
    ("the empty flag changes nothing", "4750001100000000 " + POINT, read(0, ONE)),
    ("empty flag, indicator 4", "4750001900000000 " + "d<0 " * 8 + POINT, read(0, ONE)),
    ("an envelope of NaNs", "4750000300000000 " + "d<nan " * 4 + POINT, read(0, ONE)),
    ("four bytes after the header", "4750000100000000 01E90300", refused(9)),
    ("four bytes after it, byte order 2", "4750000100000000 02E90300", refused(9)),
    ("byte order 2 after the header", "4750000100000000 02E9030000", refused(10)),
    ("a header in a header", "4750000100000000 4750000100000000 " + POINT, refused(10)),
]

# ---- the SRID: a GP blob's own, else the EWKB one, else 0

SRIDS = [
    ("GP, little-endian", "47500001E6100000 " + POINT, read(4326, ONE)),
    ("GP, little-endian, over big-endian WKB", "47500001E6100000 " + POINT_BIG, read(4326, ONE_BIG)),
    ("GP, big-endian, over little-endian WKB", "475000000000 10E6 " + POINT, read(4326, ONE)),
    ("GP, -1", "47500001FFFFFFFF " + POINT, read(-1, ONE)),
    ("GP, least", "4750000080000000 " + POINT, read(-(2**31), ONE)),
    ("GP, greatest", "475000007FFFFFFF " + POINT, read(2**31 - 1, ONE)),
    ("GP 0 over EWKB 4326", "4750000100000000 01 u<0xA0000001 u<4326 d<1 d<2 d<3", read(0, ONE)),
    ("GP 25832 over EWKB 4326", "47500001E8640000 01 u<0xA0000001 u<4326 d<1 d<2 d<3", read(25832, ONE)),
    ("bare, none", POINT, read(0, ONE)),
    ("EWKB, little-endian", "01 u<0xA0000001 u<4326 d<1 d<2 d<3", read(4326, ONE)),
    ("EWKB, big-endian", "00 u>0xA0000001 u>4326 d>1 d>2 d>3", read(4326, ONE)),
    ("EWKB, -1", "01 u<0xA0000001 u<0xFFFFFFFF d<1 d<2 d<3", read(-1, ONE)),
    ("EWKB flag on an ISO type", "01 u<0x200003E9 u<4326 d<1 d<2 d<3", read(4326, ONE)),
    ("only a member has one", "01 u<7 u<1 01 u<0xA0000001 u<4326 d<1 d<2 d<3", read(0, ONE)),
    ("a member's differs", "01 u<0x20000007 u<7 u<1 01 u<0xA0000001 u<4326 d<1 d<2 d<3", read(7, ONE)),
    ("five bytes", "01 u<0xA0000001", refused(9)),
    ("eight bytes", "01 u<0xA0000001 E61000", refused(9)),
    ("eight bytes, unknown kind", "01 u<0x20000008 E61000", refused(9)),
    ("nine bytes, unknown kind", "01 u<0x20000008 u<4326", refused(11)),
    ("cut in a member", "01 u<7 u<1 01 u<0xA0000001 E61000", refused(9)),
    ("cut in a member, unknown kind", "01 u<7 u<1 01 u<0x2000000D E61000", refused(9)),
    ("cut after a GP header", "4750000100000000 01 u<0xA0000001 E61000", refused(9)),
]

# ---- byte orders

ORDERS = [
    ("2", "02 u<1001 d<1 d<2 d<3", refused(10)),
    ("255", "FF u<1001 d<1 d<2 d<3", refused(10)),
    ("2, and five bytes only", "02 00000000", refused(10)),
    ("2, and four bytes only", "02 000000", refused(9)),
    ("2 and an unknown kind", "02 u<8", refused(10)),
    ("2 in a member", "01 u<1007 u<1 02 u<1001 d<1 d<2 d<3", refused(10)),
    ("2 in a member, four bytes left", "01 u<1007 u<1 02 000000", refused(9)),
    ("2 in the second member", "01 u<1007 u<2 " + POINT + "02 u<1001 d<1 d<2 d<3", refused(10)),
    ("2 in the second member, the first cut", "01 u<1007 u<2 " + HALF_LINE + "02 0000", refused(9)),
    ("mixed in a little-endian collection", "01 u<1007 u<3 " + POINT + POINT_BIG + LINE, read(0, ONE, ONE_BIG, TWO)),
    ("mixed in a big-endian collection", "00 u>1007 u>3 " + POINT_BIG + POINT + TRIANGLE, read(0, ONE_BIG, ONE, THREE)),
    ("mixed two levels down", "00 u>7 u>2 01 u<7 u<1 " + POINT_BIG + POINT, read(0, ONE_BIG, ONE)),
    ("big-endian count read as little-endian", "01 u<1007 u>1 " + POINT, refused(9)),
]

# ---- types: kinds, thousands, flags

KINDS = [
    (f"kind {k}", f"01 u<{k} " + "u<0 " * 16, refused(11)) for k in (0, 8, 9, 10, 11, 12, 13, 14, 18, 99, 999)
] + [
    (f"type {t}", f"01 u<{t} " + "u<0 " * 16, refused(11)) for t in (1000, 1008, 1018, 2000, 3014, 4000, 65000, 65535, 65536)
]

TYPES = [
    ("1", "01 u<1 d<1 d<2 d<3 d<4", read(0, (1, "1 2 0"))),
    ("1001", "01 u<1001 d<1 d<2 d<3 d<4", read(0, ONE)),
    ("2001", "01 u<2001 d<1 d<2 d<3 d<4", read(0, (1, "1 2 0 3"))),
    ("3001", "01 u<3001 d<1 d<2 d<3 d<4", read(0, (1, "1 2 3 4"))),
    ("3001, no room for m", "01 u<3001 d<1 d<2 d<3", refused(9)),
    ("2001, no room for m", "01 u<2001 d<1 d<2", refused(9)),
    ("4001", "01 u<4001 d<1 d<2", read(0, (1, "1 2 0"))),
    ("5001", "01 u<5001 d<1 d<2", read(0, (1, "1 2 0"))),
    ("65001", "01 u<65001 d<1 d<2", read(0, (1, "1 2 0"))),
    ("4001 with flag Z", "01 u<0x80000FA1 d<1 d<2 d<3", read(0, ONE)),
    ("4001 with flag M, no room for m", "01 u<0x40000FA1 d<1 d<2", refused(9)),
    ("4001 with flag M", "01 u<0x40000FA1 d<1 d<2 d<3", read(0, (1, "1 2 0 3"))),
    ("65001 with both flags", "00 u>0xC000FDE9 d>1 d>2 d>3 d>4", read(0, (1, "1 2 3 4"))),
    ("flag Z", "01 u<0x80000001 d<1 d<2 d<3", read(0, ONE)),
    ("flag M", "01 u<0x40000001 d<1 d<2 d<3", read(0, (1, "1 2 0 3"))),
    ("both flags", "01 u<0xC0000001 d<1 d<2 d<3 d<4", read(0, (1, "1 2 3 4"))),
    ("both flags, no room for m", "01 u<0xC0000001 d<1 d<2 d<3", refused(9)),
    ("1001 with flag Z", "01 u<0x800003E9 d<1 d<2 d<3", read(0, ONE)),
    ("1001 with flag M has no m", "01 u<0x400003E9 d<1 d<2 d<3", read(0, ONE)),
    ("2001 with flag Z is XYM", "01 u<0x800007D1 d<1 d<2 d<3", read(0, (1, "1 2 0 3"))),
    ("2001 with flag Z, big-endian", "00 u>0x800007D1 d>1 d>2 d>3", read(0, (1, "1 2 0 3"))),
    ("2001 with flag Z, no room for m", "01 u<0x800007D1 d<1 d<2", refused(9)),
    ("2001 with both flags is XYM", "01 u<0xC00007D1 d<1 d<2 d<3", read(0, (1, "1 2 0 3"))),
    ("3001 with every flag", "01 u<0xE0000BB9 u<9 d<1 d<2 d<3 d<4", read(9, (1, "1 2 3 4"))),
    ("a line, 2002 with flag Z", "01 u<0x800007D2 u<2 d<1 d<2 d<3 d<4 d<5 d<6", read(0, (2, "1 2 0 3, 4 5 0 6"))),
    ("bits 16 to 28 count for nothing", "01 u<0x1FFF03E9 d<1 d<2 d<3", read(0, ONE)),
    ("bit 16 only", "01 u<0x00010001 d<1 d<2", read(0, (1, "1 2 0"))),
]

# ---- ordinates

ORDINATES = [
    ("a point of NaNs of many patterns", "01 u<1001 p<7ff8000000000000 p<fff8000000000000 p<7ff0000000000001", read(0, (1, "nan nan nan"))),
    ("more patterns, big-endian", "00 u>1001 p>ffffffffffffffff p>7fffffffffffffff p>fff0000000000001", read(0, (1, "nan nan nan"))),
    ("a NaN without Z", "01 u<1 p<7ff8000000000000 d<2", read(0, (1, "nan 2 0"))),
    ("infinities", "01 u<1001 p<7ff0000000000000 p<fff0000000000000 d<0", read(0, (1, "inf -inf 0"))),
    ("zeros", "00 u>1001 p>8000000000000000 p>0000000000000000 p>8000000000000000", read(0, (1, "-0.0 0 -0.0"))),
    ("least and greatest", "01 u<1001 p<0000000000000001 p<7fefffffffffffff p<000fffffffffffff", read(0, (1, "5e-324 1.7976931348623157e308 2.225073858507201e-308"))),
    ("a line with a NaN", "01 u<1002 u<2 d<0 d<nan d<0 d<1 d<1 d<1", read(0, (2, "0 nan 0, 1 1 1"))),
]

# ---- m, the fourth float of a coordinate

M = [
    ("XYM that passes the Z test", "01 u<0x800007D1 d<3 d<4 d<99", read(0, (1, "3 4 0 99"))),
    ("XYZM", "01 u<3001 d<1 d<2 d<3 d<99.5", read(0, (1, "1 2 3 99.5"))),
    ("XYZM, big-endian", "00 u>3001 d>1 d>2 d>3 d>99.5", read(0, (1, "1 2 3 99.5"))),
    ("XYZM by flags, an SRID before it", "00 u>0xE0000001 u>4326 d>1 d>2 d>3 d>99.5", read(4326, (1, "1 2 3 99.5"))),
    ("XYZM of a GP blob with an envelope of M", "47500009E6100000 " + "d<7 " * 8 + "01 u<3001 d<1 d<2 d<3 d<99.5", read(4326, (1, "1 2 3 99.5"))),
    ("XYZ, and a number that follows", "01 u<1001 d<1 d<2 d<3 d<99.5", read(0, ONE)),
    ("XY, and numbers that follow", "00 u>1 d>1 d>2 d>3 d>99.5", read(0, (1, "1 2 0"))),
    ("NaNs of many patterns", "01 u<3002 u<4 " + " ".join("d<1 d<2 d<3 p<" + p for p in (
        "7ff8000000000000", "fff8000000000000", "7ff0000000000001", "ffffffffffffffff")), read(0, (2, ", ".join(["1 2 3 nan"] * 4)))),
    ("zeros", "00 u>2002 u>2 d>1 d>2 p>8000000000000000 d>3 d>4 p>0000000000000000", read(0, (2, "1 2 0 -0.0, 3 4 0 0"))),
    ("least, greatest, infinities", "01 u<2002 u<4 d<1 d<1 p<0000000000000001 d<2 d<2 p<7fefffffffffffff d<3 d<3 p<7ff0000000000000 d<4 d<4 p<fff0000000000000",
     read(0, (2, "1 1 0 5e-324, 2 2 0 1.7976931348623157e308, 3 3 0 inf, 4 4 0 -inf"))),
    ("XYM and XYZM differ from coordinate to coordinate", "00 u>7 u>2 00 u>2002 u>2 d>1 d>2 d>10 d>3 d>4 d>20 01 u<3002 u<2 d<5 d<6 d<7 d<30 d<8 d<9 d<10 d<40",
     read(0, (2, "1 2 0 10, 3 4 0 20"), (2, "5 6 7 30, 8 9 10 40"))),
    ("XY, XYZ, XYM, XYZM in one collection", "01 u<7 u<4 " + POINT_XY + POINT + POINT_M + "01 u<3001 d<12 d<13 d<14 d<15", read(0, ONE_XY, ONE, ONE_M, (1, "12 13 14 15"))),
    ("the same, the other way round", "00 u>0xC0000007 u>4 01 u<3001 d<12 d<13 d<14 d<15 " + POINT_M + POINT + POINT_XY, read(0, (1, "12 13 14 15"), ONE_M, ONE, ONE_XY)),
    ("the collection's M is not its member's", "01 u<3007 u<1 " + POINT, read(0, ONE)),
    ("rings of XYZM, one empty", "01 u<3003 u<3 u<1 d<1 d<2 d<3 d<10 u<0 u<2 d<4 d<5 d<6 d<20 d<7 d<8 d<9 d<30", read(0, (3, "1 2 3 10"), (3, "4 5 6 20, 7 8 9 30"))),
    ("a triangle of XYM", "00 u>2017 u>1 u>3 d>0 d>0 d>1 d>4 d>0 d>2 d>0 d>4 d>3", read(0, (17, "0 0 0 1, 4 0 0 2, 0 4 0 3"))),
]

# ---- lines, rings and their counts

COUNTS = [
    ("a line of 0", "01 u<1002 u<0", read(0)),
    ("a line of 1", "01 u<1002 u<1 d<1 d<2 d<3", read(0, (2, "1 2 3"))),
    ("a line of 2", LINE, read(0, TWO)),
    ("a line of 2, big-endian XYZM", "00 u>3002 u>2 d>1 d>2 d>3 d>9 d>4 d>5 d>6 d>9", read(0, (2, "1 2 3 9, 4 5 6 9"))),
    ("a line of 3, two are there", "01 u<1002 u<3 d<0 d<0 d<0 d<3 d<4 d<12", refused(9)),
    ("a line of 2^32 - 1", "01 u<1002 u<0xFFFFFFFF d<0 d<0 d<0 d<3 d<4 d<12", refused(9)),
    ("a line of 2^32 - 1, nothing after", "01 u<2 u<0xFFFFFFFF", refused(9)),
    ("a line of 2^31", "00 u>1002 u>0x80000000 d>0 d>0 d>0", refused(9)),
    ("16 bytes times 2^28 is 2^32", "01 u<2 u<0x10000000", refused(9)),
    ("32 bytes times 2^27 is 2^32", "01 u<3002 u<0x08000000", refused(9)),
    ("24 bytes times 178956971 is 2^32 + 8", "01 u<1002 u<178956971 d<0", refused(9)),
    ("the count is cut", "01 u<1002 020000", refused(9)),
    ("a polygon of no ring", "01 u<1003 u<0", read(0)),
    ("a ring of 0", "01 u<1003 u<1 u<0", read(0)),
    ("a ring of 1", "01 u<1003 u<1 u<1 d<1 d<2 d<3", read(0, (3, "1 2 3"))),
    ("an empty ring between two", "01 u<3 u<3 u<1 d<1 d<2 u<0 u<2 d<3 d<4 d<5 d<6", read(0, (3, "1 2 0"), (3, "3 4 0, 5 6 0"))),
    ("2^32 - 1 rings, none there", "01 u<1003 u<0xFFFFFFFF", refused(9)),
    ("2^32 - 1 rings, one there", "01 u<1003 u<0xFFFFFFFF u<1 d<1 d<2 d<3", refused(9)),
    ("2^32 - 1 rings, all that are there empty", "01 u<1003 u<0xFFFFFFFF " + "u<0 " * 20, refused(9)),
    ("a ring of 2^32 - 1", "01 u<1003 u<1 u<0xFFFFFFFF d<1 d<2 d<3", refused(9)),
    ("the second ring of 2^32 - 1", "00 u>1003 u>2 u>1 d>1 d>2 d>3 u>0xFFFFFFFF d>1 d>2 d>3", refused(9)),
    ("a triangle", TRIANGLE, read(0, THREE)),
    ("a triangle of two rings", "01 u<17 u<2 u<1 d<1 d<2 u<1 d<3 d<4", read(0, (17, "1 2 0"), (17, "3 4 0"))),
    ("a triangle of no ring", "00 u>17 u>0", read(0)),
    ("a triangle of 2^32 - 1 rings", "00 u>1017 u>0xFFFFFFFF", refused(9)),
]

# ---- collections

MEMBERS = [
    (f"kind {k} of any members", f"01 u<{1000 + k} u<4 " + POINT + LINE + TRIANGLE + POINT_BIG, read(0, ONE, TWO, THREE, ONE_BIG))
    for k in (4, 5, 6, 7, 15, 16)
] + [
    (f"kind {k} of none", f"00 u>{k} u>0", read(0)) for k in (4, 5, 6, 7, 15, 16)
] + [
    (f"kind {k} of 2^32 - 1, none there", f"01 u<{k} u<0xFFFFFFFF", refused(9)) for k in (4, 5, 6, 7, 15, 16)
] + [
    ("2^32 - 1, one there", "01 u<1004 u<0xFFFFFFFF " + POINT, refused(9)),
    ("2^32 - 1, the second of an unknown kind", "01 u<1007 u<0xFFFFFFFF " + POINT + "01 u<1008", refused(11)),
    ("2^32 - 1, the second of byte order 3", "01 u<1007 u<0xFFFFFFFF " + POINT + "03 u<1008", refused(10)),
    ("2^32 - 1 in a member", "01 u<1007 u<1 01 u<1007 u<0xFFFFFFFF " + POINT, refused(9)),
    ("2^32 - 1 coordinates in a member", "01 u<1007 u<2 01 u<1002 u<0xFFFFFFFF " + POINT, refused(9)),
    ("the count is cut", "01 u<1007 010000", refused(9)),
    ("two members, one there", "01 u<1007 u<2 " + POINT, refused(9)),
    ("one member, two there", "01 u<1007 u<1 " + POINT + POINT_BIG, read(0, ONE)),
    ("an unknown kind among members", "01 u<1007 u<3 " + POINT + "01 u<1008 u<0 " + POINT, refused(11)),
    ("an unknown kind after a cut line", "01 u<1007 u<2 " + HALF_LINE, refused(9)),
    ("each member has its own dimensions", "01 u<3007 u<4 " + POINT_XY + POINT_M + POINT + LINE, read(0, ONE_XY, ONE_M, ONE, TWO)),
    ("empties among members", "01 u<1007 u<4 01 u<1002 u<0 " + POINT + "01 u<1003 u<1 u<0 00 u>1005 u>0", read(0, ONE)),
    ("collections in a collection", "01 u<7 u<3 00 u>4 u>2 " + POINT_BIG + POINT_XY + "01 u<6 u<0 01 u<16 u<1 " + TRIANGLE, read(0, ONE_BIG, ONE_XY, THREE)),
]

# ---- levels: the top is 0, 32 is read, 33 is refused (fixture 14)

LEVELS = [
    ("a point at 32", LEVEL * 32 + POINT, read(0, ONE)),
    ("a point at 33", LEVEL * 33 + POINT, refused(12)),
    ("a point at 32, big-endian, an SRID at each", LEVEL_BIG * 32 + POINT_BIG, read(5, ONE_BIG)),
    ("a point at 33, big-endian, an SRID at each", LEVEL_BIG * 33 + POINT_BIG, refused(12)),
    ("a point at 32 of a GP blob", "4750000100000000 " + LEVEL * 32 + POINT, read(0, ONE)),
    ("a point at 33 of a GP blob", "4750000100000000 " + LEVEL * 33 + POINT, refused(12)),
    ("an empty collection at 32", LEVEL * 32 + "01 u<1007 u<0", read(0)),
    ("an empty collection at 33", LEVEL * 33 + "01 u<1007 u<0", refused(12)),
    ("33 with no bytes left", LEVEL * 33, refused(12)),
    ("33 with a bad byte order", LEVEL * 33 + "02 u<8", refused(12)),
    ("33 of 2^32 - 1 members", LEVEL * 32 + "01 u<1007 u<0xFFFFFFFF", refused(12)),
    ("32 with no bytes left", LEVEL * 32, refused(9)),
    ("32 with a bad byte order", LEVEL * 32 + "02 u<8", refused(10)),
    ("32 of an unknown kind", LEVEL * 32 + "01 u<8", refused(11)),
    ("2^32 - 1 members at every level", "01 u<1007 u<0xFFFFFFFF " * 33 + POINT, refused(12)),
    ("other collections at 32", "01 u<4 u<1 00 u>5 u>1 01 u<6 u<1 01 u<15 u<1 " * 8 + POINT, read(0, ONE)),
    ("other collections at 33", "01 u<16 u<1 " + "01 u<4 u<1 00 u>5 u>1 01 u<6 u<1 01 u<15 u<1 " * 8 + POINT, refused(12)),
    ("100 levels", LEVEL * 100 + POINT, refused(12)),
    ("two of depth 32", "01 u<7 u<2 " + (LEVEL * 31 + POINT) * 2, read(0, ONE, ONE)),
    ("one of depth 32, one of 33", "01 u<7 u<2 " + LEVEL * 31 + POINT + LEVEL * 32 + POINT, refused(12)),
    ("an unknown kind before one of depth 33", "01 u<7 u<2 01 u<8 " + LEVEL * 32 + POINT, refused(11)),
]

# ---- trailing bytes are ignored

TRAILING = [
    ("one", POINT + "FF", read(0, ONE)),
    ("a second geometry", POINT + POINT_BIG, read(0, ONE)),
    ("after a line", LINE + "FFFFFFFF", read(0, TWO)),
    ("after a triangle", TRIANGLE + "u<1", read(0, THREE)),
    ("after a collection", "01 u<1007 u<1 " + POINT + "02 02", read(0, ONE)),
    ("after an empty collection", "01 u<1007 u<0 " + POINT, read(0)),
    ("after a GP blob", "47500003E6100000 " + "d<0 " * 4 + LINE + "4750", read(4326, TWO)),
]

# ---- every beginning of a blob: from each number of bytes on, what is expected

POLYGON_BIG = "00 u>1003 u>2 u>3 d>0 d>0 d>0 d>4 d>0 d>0 d>0 d>4 d>0 u>1 d>1 d>1 d>0"
POLYGON_RUNS = ((3, "0 0 0, 4 0 0, 0 4 0"), (3, "1 1 0"))
NESTED = "01 u<0xA0000007 u<4326 u<3 " + POINT_BIG + "00 u>7 u>2 " + LINE + "00 u>2005 u>0 " + TRIANGLE

BEGINNINGS = [
    ("GP, indicator 1, point", "47500003E6100000 " + "d<0 " * 4 + POINT, {0: 9, 2: 3, 8: 8, 40: 9, 69: read(4326, ONE)}),
    ("GP, indicator 4, big-endian, line", "47500008000010E6 " + "d>0 " * 8 + LINE, {0: 9, 2: 3, 8: 8, 72: 9, 129: read(4326, TWO)}),
    ("GP, indicator 0, EWKB point", "4750000100000000 01 u<0xA0000001 u<7 d<1 d<2 d<3", {0: 9, 2: 3, 8: 9, 41: read(0, ONE)}),
    ("GP, version 1", "4750010100000000 " + POINT, {0: 9, 2: 3, 8: 4}),
    ("GP, extended", "4750002100000000 " + POINT, {0: 9, 2: 3, 8: 5}),
    ("GP, reserved", "4750004100000000 " + POINT, {0: 9, 2: 3, 8: 6}),
    ("GP, indicator 5", "4750000B00000000 " + "d<0 " * 4 + POINT, {0: 9, 2: 3, 8: 7}),
    ("GP, byte order 2", "4750000100000000 02 u<1001 d<1 d<2 d<3", {0: 9, 2: 3, 8: 9, 13: 10}),
    ("point", POINT, {0: 9, 29: read(0, ONE)}),
    ("point without Z, trailing bytes", POINT_XY + "01 02 03", {0: 9, 21: read(0, ONE_XY)}),
    ("point, big-endian XYZM", "00 u>3001 d>1 d>2 d>3 d>4", {0: 9, 37: read(0, (1, "1 2 3 4"))}),
    ("point of byte order 2", "02 u<1001 d<1 d<2 d<3", {0: 9, 5: 10}),
    ("unknown kind", "01 u<1008 u<0 u<0", {0: 9, 5: 11}),
    ("unknown kind with an SRID", "01 u<0x20000008 u<4326 u<0", {0: 9, 9: 11}),
    ("line", LINE, {0: 9, 57: read(0, TWO)}),
    ("line with an SRID, big-endian", "00 u>0x60000002 u>4326 u>2 d>1 d>2 d>3 d>4 d>5 d>6", {0: 9, 61: read(4326, (2, "1 2 0 3, 4 5 0 6"))}),
    ("polygon, big-endian, two rings", POLYGON_BIG, {0: 9, 113: read(0, *POLYGON_RUNS)}),
    ("triangle", TRIANGLE, {0: 9, 85: read(0, THREE)}),
    ("nested, mixed byte orders", NESTED, {0: 9, 202: read(4326, ONE_BIG, TWO, THREE)}),
    ("collection with an unknown kind", "01 u<7 u<2 " + POINT_XY + "01 u<9 u<0", {0: 9, 35: 11}),
    ("level 33", LEVEL * 33 + POINT, {0: 9, 297: 12}),
]


def beginnings(name, blob, starts):
    found, now = [], None
    for n in range(len(blob) + 1):
        now = starts.get(n, now)
        expected = refused(now) if isinstance(now, int) else now
        found.append((f"{name}: first {n}", blob[:n], expected))
    return found


def cases():
    groups = [
        ("header", HEADERS),
        ("SRID", SRIDS),
        ("byte order", ORDERS),
        ("kind", KINDS),
        ("type", TYPES),
        ("ordinates", ORDINATES),
        ("m", M),
        ("count", COUNTS),
        ("members", MEMBERS),
        ("level", LEVELS),
        ("trailing", TRAILING),
    ]
    found = [(f"{group}: {name}", blob_of(text), expected) for group, table in groups for name, text, expected in table]
    for name, text, starts in BEGINNINGS:
        found += beginnings(name, blob_of(text), starts)
    return found
