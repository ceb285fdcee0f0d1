/*
 * Viskorrel: 3D measures between GeoPackage or WKB blobs.
 *
 * Each function is proved to meet its contract (crates/viskorrel/src/lib.rt): for every input it ends, and its reply, the workspaces
 * and the output equal definitions (specs/ of crates/replies and of the crates that it stands on). Nothing is allocated, and nothing
 * is kept between calls. viskorrel_job keeps about 70 KiB of its own on the stack while it runs, and its matches 41 KiB more.
 *
 * LENT MEMORY
 *
 * A buffer is passed as a pointer and a length. Lengths count elements, not bytes. What the caller must see to:
 *
 *   - A pointer is never null, also where its length is 0: pass any aligned address then, such as that of a local of its type.
 *   - A buffer that the call may change (workspaces, lists, output) overlaps no other buffer of the call, and no other thread uses it
 *     meanwhile.
 *     Blobs are only read: one blob may be passed both as a and as b.
 *   - A pointer is aligned for its type, and so many elements from it on belong to the caller.
 *
 * WORKSPACES
 *
 * A blob is read into a workspace: floats1 and table1 for a, floats2 and table2 for b. A blob of N coordinates in R runs (points, lines
 * and rings with at least one coordinate) takes the first 4N floats, x, y, z, m of each coordinate, and the first 2R numbers of the table,
 * kind and count of each run. A z or m that the encoding does not have is 0 (+0). viskorrel_sizes gives both lengths. The rest stays
 * unchanged; what the workspace held before does not matter. Every call that is not refused fills the workspaces, also where it answers
 * nothing. No distance, line or point depends on m, which may be NaN: a vertex is x, y and z. What a job leaves in its workspaces is open.
 *
 * REFUSALS
 *
 * A refused call changes nothing that was lent, the workspaces of a job apart. (What is proved of floats is proved up to the payload and sign
 * of a NaN: of a NaN that a workspace holds, "unchanged" says that it is a NaN. That its bits stay too is what the comparison with the
 * original tests.) `number` says why it was refused; `side` says what it speaks of: 1 for a or the only blob, 2 for b, 0 for neither; of a
 * job 1 for the first number of a match, 2 for the second.
 *
 *    1  d is below 0
 *    2  the fraction is not within 0..1, or NaN
 *    3  the blob starts with "GP" and has under 8 bytes
 *    4  GeoPackage header: the version is not 0
 *    5  GeoPackage header: the bit for extended types is set
 *    6  GeoPackage header: a reserved bit is set
 *    7  GeoPackage header: the envelope indicator is 5, 6 or 7
 *    8  the blob ends in the envelope
 *    9  a geometry's header, an SRID, a count or a run of coordinates is longer than the bytes left
 *   10  a byte order is above 1
 *   11  a geometry has an unknown kind
 *   12  a geometry stands more than 32 levels deep
 *   13  operations on two blobs: the type at the top has no Z
 *   14  interpolation: there is a point or face, or no segment
 *   15  the floats or the table of that side are too short
 *   16  the output is too short, even where the answer is nothing
 *   17  operations by the least distance: the rule is a number other than 1 or 2
 *   18  join: the SRIDs of the two blobs differ
 *   19  join: a geometry would stand more than 32 levels deep
 *   20  job: a command is unknown, or the tape ends before 04 or inside a command
 *   21  job: a number is matched that is not loaded
 *   22  job: there are more hits than the shortest list has places
 *
 * Where several hold, the first of this order is given: 1, 2; 17; side 1's header (3 to 8, 9 for its first five bytes, 10, then 13), side 2's;
 * the geometries of side 1, of side 2 (of each 12, 9, 10, 9 for the SRID, 11, then its content); 14; 15 of side 1, of side 2; 18; 19; 16.
 * A job goes by its commands, in tape order: JOB says more.
 */
#ifndef VISKORREL_H
#define VISKORREL_H

#include <stddef.h>
#include <stdint.h>

#define VISKORREL_VERSION "0.7.6"

#ifdef __cplusplus
extern "C" {
#endif

/* What came of a call: the field `outcome` of a reply (in the definitions `case`, which is a keyword of C). */
enum viskorrel_outcome {
    VISKORREL_NOTHING = 0,    /* there is no answer; to a question: no */
    VISKORREL_ANSWERED = 1,   /* there is an answer; to a question: yes */
    VISKORREL_REFUSED = 2,    /* number and side say why */
    VISKORREL_NO_SURFACE = 3  /* patches only */
};

/* What an operation returns. A field is 0 where the outcome gives it no meaning. */
typedef struct viskorrel_reply {
    uint32_t outcome;
    uint32_t number;   /* of a refusal, 1 to 22 */
    uint32_t side;     /* of a refusal, 0 to 2 */
    double value;      /* a distance that was answered; may be NaN, whose sign and payload mean nothing */
} viskorrel_reply;

/* What is returned where two numbers answer. A field is 0 where the outcome gives it no meaning. */
typedef struct viskorrel_pair {
    uint32_t outcome;
    uint32_t number;
    uint32_t side;
    size_t first;
    size_t second;
} viskorrel_pair;

/* What is returned of a root: itself, and the digits needed. */
typedef struct viskorrel_root {
    double root;       /* may be NaN, whose sign and payload mean nothing */
    uint32_t digits;   /* 1 to 27: the root is exact; 53: it is rounded; 0: s is not both positive and finite */
} viskorrel_root;

/* What a coordinate takes of the floats, x, y, z, m, and a run of the table, kind and count. */
#define VISKORREL_COORDINATE_FLOATS 4
#define VISKORREL_RUN_NUMBERS 2

/* The bytes that a blob takes in the output. */
#define VISKORREL_POINT_BYTES 37
#define VISKORREL_LINE_BYTES 65

/* The bytes that a join takes beside those of its two geometries. */
#define VISKORREL_JOIN_BYTES 17

/* The rules of the least distance: whether a segment that passes through a triangle touches it. LEAST DISTANCE says more. */
#define VISKORREL_RULE_1 1
#define VISKORREL_RULE_2 2

/*
 * The lengths to lend for a blob: first is that of the floats, second that of the table.
 * Lent: the blob. Changed: nothing. Refusals: 3 to 12.
 */
viskorrel_pair viskorrel_sizes(const uint8_t *blob, size_t length);

/*
 * The coordinates and runs of a blob, read into a workspace as every operation does: first is how many floats were filled, 4N (x, y, z, m
 * of each coordinate), second how many numbers of the table, 2R. The kind of a run is 1 for a point, 2 for a line, 3 for a ring, 17 for a
 * triangle's ring. The blob needs neither Z nor M: what it does not have is 0. Whether it has M is told by its type, not by what is read: an
 * m of 0 may be the blob's own. The outcome is never nothing.
 * Lent: the blob, a workspace for it. Changed: the workspace. Refusals: 3 to 12, 15.
 */
viskorrel_pair viskorrel_read(
    const uint8_t *blob, size_t length, double *floats, size_t floats_length, uint32_t *table, size_t table_length);

/*
 * LEAST DISTANCE. Each point, segment and triangle of a is measured against each of b, unless their boxes are no closer than the best so
 * far. A line of n vertices has n - 1 segments. Every ring, a hole too, is a filled face: a fan of triangles from its first vertex, none if
 * it has under 3 vertices. There is none where a or b has no point, segment or triangle.
 *
 * By rule 1 a segment that passes through a triangle is measured at its ends and at the triangle's edges. By rule 2 the point where it
 * passes through is looked for first: where it is found, the distance is 0. The same holds of two triangles and each edge of one that passes
 * through the other. Where neither blob has a triangle, both rules give the same.
 */

/*
 * The least distance, in value. Nothing: there is none.
 * Lent: both blobs, a workspace for each. Changed: the workspaces. Refusals: 3 to 13, 15, 17.
 */
viskorrel_reply viskorrel_3d_distance(
    const uint8_t *a, size_t a_length, const uint8_t *b, size_t b_length, uint32_t rule,
    double *floats1, size_t floats1_length, uint32_t *table1, size_t table1_length,
    double *floats2, size_t floats2_length, uint32_t *table2, size_t table2_length);

/*
 * Whether the least distance is at most d. No also where there is none, or where one of the two is NaN.
 * Lent: both blobs, a workspace for each. Changed: the workspaces. Refusals: 1, 3 to 13, 15, 17.
 */
viskorrel_reply viskorrel_3d_dwithin(
    const uint8_t *a, size_t a_length, const uint8_t *b, size_t b_length, double d, uint32_t rule,
    double *floats1, size_t floats1_length, uint32_t *table1, size_t table1_length,
    double *floats2, size_t floats2_length, uint32_t *table2, size_t table2_length);

/*
 * Whether the least distance is 0. No also where there is none.
 * Lent: both blobs, a workspace for each. Changed: the workspaces. Refusals: 3 to 13, 15, 17.
 */
viskorrel_reply viskorrel_3d_intersects(
    const uint8_t *a, size_t a_length, const uint8_t *b, size_t b_length, uint32_t rule,
    double *floats1, size_t floats1_length, uint32_t *table1, size_t table1_length,
    double *floats2, size_t floats2_length, uint32_t *table2, size_t table2_length);

/*
 * The point of a at the least distance, the first of several: a GeoPackage blob with the SRID of a, in the first 37 bytes of the output.
 * Nothing: there is none; the output is unchanged.
 * Lent: both blobs, a workspace for each, the output. Changed: the workspaces, and the first 37 bytes of the output.
 * Refusals: 3 to 13, 15 to 17.
 */
viskorrel_reply viskorrel_3d_closest_point(
    const uint8_t *a, size_t a_length, const uint8_t *b, size_t b_length, uint32_t rule,
    double *floats1, size_t floats1_length, uint32_t *table1, size_t table1_length,
    double *floats2, size_t floats2_length, uint32_t *table2, size_t table2_length,
    uint8_t *output, size_t output_length);

/*
 * The line from the point of a to the point of b at the least distance, the first of several: a GeoPackage blob with the SRID of a, in
 * the first 65 bytes of the output. Nothing: there is none; the output is unchanged.
 * Lent: both blobs, a workspace for each, the output. Changed: the workspaces, and the first 65 bytes of the output.
 * Refusals: 3 to 13, 15 to 17.
 */
viskorrel_reply viskorrel_3d_shortest_line(
    const uint8_t *a, size_t a_length, const uint8_t *b, size_t b_length, uint32_t rule,
    double *floats1, size_t floats1_length, uint32_t *table1, size_t table1_length,
    double *floats2, size_t floats2_length, uint32_t *table2, size_t table2_length,
    uint8_t *output, size_t output_length);

/*
 * GREATEST DISTANCE. Each vertex of a is measured against each of b. There is none where a or b has no vertex. A line of one vertex has no
 * segment, and so no vertex.
 */

/*
 * The greatest distance, in value. Nothing: there is none.
 * Lent: both blobs, a workspace for each. Changed: the workspaces. Refusals: 3 to 13, 15.
 */
viskorrel_reply viskorrel_3d_max_distance(
    const uint8_t *a, size_t a_length, const uint8_t *b, size_t b_length,
    double *floats1, size_t floats1_length, uint32_t *table1, size_t table1_length,
    double *floats2, size_t floats2_length, uint32_t *table2, size_t table2_length);

/*
 * Whether the greatest distance is at most d. No also where there is none, or where one of the two is NaN.
 * Lent: both blobs, a workspace for each. Changed: the workspaces. Refusals: 1, 3 to 13, 15.
 */
viskorrel_reply viskorrel_3d_dfully_within(
    const uint8_t *a, size_t a_length, const uint8_t *b, size_t b_length, double d,
    double *floats1, size_t floats1_length, uint32_t *table1, size_t table1_length,
    double *floats2, size_t floats2_length, uint32_t *table2, size_t table2_length);

/*
 * The line from the vertex of a to the vertex of b at the greatest distance, the first of several: a GeoPackage blob with the SRID of a, in
 * the first 65 bytes of the output. Nothing: there is none; the output is unchanged.
 * Lent: both blobs, a workspace for each, the output. Changed: the workspaces, and the first 65 bytes of the output.
 * Refusals: 3 to 13, 15, 16.
 */
viskorrel_reply viskorrel_3d_longest_line(
    const uint8_t *a, size_t a_length, const uint8_t *b, size_t b_length,
    double *floats1, size_t floats1_length, uint32_t *table1, size_t table1_length,
    double *floats2, size_t floats2_length, uint32_t *table2, size_t table2_length,
    uint8_t *output, size_t output_length);

/*
 * The point at a fraction of the length of the blob's lines: a GeoPackage blob with the SRID of the blob, in the first 37 bytes of the output.
 * The blob needs no Z. The outcome is never nothing.
 * Lent: the blob, a workspace for it, the output. Changed: the workspace, and the first 37 bytes of the output.
 * Refusals: 2 to 12, 14 to 16.
 */
viskorrel_reply viskorrel_3d_line_interpolate_point(
    const uint8_t *blob, size_t length, double fraction,
    double *floats, size_t floats_length, uint32_t *table, size_t table_length,
    uint8_t *output, size_t output_length);

/*
 * JOIN. Two blobs as one: a GeoPackage header without envelope, little-endian, with the SRID of both, the empty flag not set; then a
 * collection of type 1007, little-endian, with two members: the bytes of a's geometry as they stand, then those of b's. Byte orders,
 * dimensions and SRIDs inside are kept; envelopes, and the bytes after a geometry's end, are left out. The result is a blob that can be read
 * (a's runs, then b's), measured, and joined again where a level is left. If no computed distance is NaN, the greatest distance from it to a
 * third blob is the larger of the two separate ones, or the only one there is; else there is none.
 *
 * SRIDs are compared as numbers, whatever byte order they stand in: that of a GeoPackage header, also where it is 0, else that of the EWKB
 * header, else 0. Both blobs need Z. A join is a level deeper than its parts: a geometry 32 levels deep can be read, and not joined.
 *
 * first is the size, 17 and the lengths of both geometries: so many bytes of the output are written, from its start on. second is 0, and the
 * outcome never nothing. An output of a_length + b_length + 17 bytes always suffices.
 * Lent: both blobs, the output; no workspace. Changed: the first bytes of the output, as many as first says.
 * Refusals: 3 to 13, 16, 18, 19.
 */
viskorrel_pair viskorrel_join(
    const uint8_t *a, size_t a_length, const uint8_t *b, size_t b_length, uint8_t *output, size_t output_length);

/*
 * JOB. A tape of commands, answered by a list of hits: which of the blobs that it loads are within a tolerance of each other. A command is one
 * byte, and its operands follow it, little-endian and without padding:
 *
 *     load       01, number u8, length u32, so many bytes: the blob of that number; loaded again, the new one takes the old one's place
 *     tolerance  02, metres as a binary64: that of the matches from here on; before the first it is 0
 *     match      03, first number u8, second number u8: a hit, if the least distance of the two by rule 1 is within the tolerance
 *     end        04: what follows it is ignored
 *
 * Two points four metres apart, and whether they are within five, in 83 bytes; XX are the points' own 29 each:
 *
 *     01 07 1D 00 00 00 XX ..   01 09 1D 00 00 00 XX ..   02 00 00 00 00 00 00 14 40   03 07 09   04
 *
 *     uint16_t first[1], second[1];
 *     double distances[1], floats1[4], floats2[4];
 *     uint32_t table1[2], table2[2];
 *     viskorrel_pair hits = viskorrel_job(tape, sizeof tape, floats1, 4, table1, 2, floats2, 4, table2, 2, first, 1, second, 1, distances, 1);
 *
 * answers one hit: first[0] is 7, second[0] is 9, distances[0] is 4.
 *
 * A hit is both numbers and the distance. A pair is within tolerance if there is a least distance and it is at most the tolerance, as
 * viskorrel_3d_dwithin has it: a tolerance of NaN is not refused and gives no hit, and -0 is 0. A pair matched twice gives two hits, a number
 * may be matched with itself, and the first number is side 1. A blob is looked at when it is matched, and never otherwise: what is loaded and
 * not matched may be any bytes.
 *
 * The hits stand in the three lists, hit k in place k of each: first numbers, second numbers, distances. They hold as many as the shortest;
 * as many places as the tape has matches always suffice. The order of the hits is open. Places past the hits keep what they held, and of a
 * refused job all places do. What a job leaves in the workspaces is open, refused or not. The workspace of a side must suffice for each blob
 * that is matched on that side: viskorrel_sizes gives the lengths.
 *
 * Commands are run in tape order, and the first that is at fault is the one refused: with 20, unknown or cut off; of a match then 21, a number
 * not loaded; then 1, the tolerance is below 0 (side 0); then as viskorrel_3d_distance refuses the two blobs. A tape without an end is refused
 * with 20 when all its commands are run. 22 comes after all of these: more hits than the shortest list holds.
 *
 * The number of hits in first; second is 0, and the outcome never nothing.
 * Lent: the tape, a workspace for each side, the lists. Changed: the workspaces, and the first places of the lists, as many as first says.
 * Refusals: 1, 3 to 13, 15, 20 to 22.
 */
viskorrel_pair viskorrel_job(
    const uint8_t *tape, size_t tape_length,
    double *floats1, size_t floats1_length, uint32_t *table1, size_t table1_length,
    double *floats2, size_t floats2_length, uint32_t *table2, size_t table2_length,
    uint16_t *first, size_t first_length, uint16_t *second, size_t second_length, double *distances, size_t distances_length);

/*
 * PATCHES of a polyhedral surface, TIN or triangle, counted from 0. A triangle is its own patch 0, to the blob's end.
 * No surface: the blob is none of these, or its GeoPackage header, its first byte order or its type is at fault or cut off. A fault after
 * the type is refused, with 9 or 10 as side 1: the surface's SRID or count, or any patch, whichever is asked for. A triangle is never refused.
 *
 * viskorrel_patch scans every patch, for each n anew. To walk all patches of a large surface, scan them once with viskorrel_patches, and
 * then go from patch to patch with viskorrel_next_patch, which scans one patch a call:
 *
 *     viskorrel_pair list = viskorrel_patches(blob, length);
 *     size_t at = list.first, left = list.outcome == VISKORREL_ANSWERED ? list.second : 0;
 *     for (; left > 0; left--) {
 *         viskorrel_pair patch = viskorrel_next_patch(blob, length, at, left);
 *         use(blob + patch.first, patch.second - patch.first);
 *         at = patch.second;
 *     }
 *
 * It is proved that the walk meets patch 0, 1, 2 and so on, each as viskorrel_patch has it.
 */

/*
 * Where patch n stands in its blob: from byte first up to byte second, which is no more part of it. Nothing: there is no patch n.
 * Lent: the blob. Changed: nothing. Refusals: 9 and 10.
 */
viskorrel_pair viskorrel_patch(const uint8_t *blob, size_t length, uint64_t n);

/*
 * The patches of a blob: first is where patch 0 starts, second how many there are.
 * Lent: the blob. Changed: nothing. Refusals: 9 and 10.
 */
viskorrel_pair viskorrel_patches(const uint8_t *blob, size_t length);

/*
 * Where the next patch stands, as viskorrel_patch tells it. at is where it starts, left how many there are from it on: what viskorrel_patches
 * gives, and after a patch its end and one less. Nothing: left is 0. Any other at and left may be passed too; of a surface that is no
 * triangle, what stands at byte at is then scanned as a patch.
 * Lent: the blob. Changed: nothing. Refusals: 9 and 10, from that patch.
 */
viskorrel_pair viskorrel_next_patch(const uint8_t *blob, size_t length, size_t at, size_t left);

/*
 * ROOT. The square root of s, rounded once to the nearest, as distances take it, and the digits needed: for positive finite s the fewest
 * leading binary digits of the root, from its first 1, whose square is s exactly. The root of 25 is 101 in binary, so 3; that of 4 is 10, so
 * 1. Where there are none, since the root is rounded, digits is 53, which says nothing else: an exact root needs at most 27. For every other s
 * digits is 0; the root of 0, -0, +infinity and NaN is then the number itself, that of a number below 0 is NaN.
 * The root is found digit by digit, and ends with the last that is needed. Lent: nothing. Changed: nothing. Refusals: none.
 */
viskorrel_root viskorrel_root_digits(double s);

#ifdef __cplusplus
}
#endif

#endif
