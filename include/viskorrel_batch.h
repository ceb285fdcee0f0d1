/*
 * Viskorrel: many measures in one call. These functions stand in the shared object, libviskorrel.so, not in the proved archive: they lend
 * the memory, grow it, and call the proved functions of viskorrel.h once for each pair. They are tested, not proved.
 *
 * Nothing is kept between calls: threads may call at the same time, on the same blobs.
 */
#ifndef VISKORREL_BATCH_H
#define VISKORREL_BATCH_H

#include "viskorrel.h"

#ifdef __cplusplus
extern "C" {
#endif

enum viskorrel_operation {
    VISKORREL_DISTANCE = 0,
    VISKORREL_MAX_DISTANCE = 1,
    VISKORREL_INTERSECTS = 2,
    VISKORREL_DWITHIN = 3,
    VISKORREL_DFULLY_WITHIN = 4,
    VISKORREL_CLOSEST_POINT = 5,
    VISKORREL_SHORTEST_LINE = 6,
    VISKORREL_LONGEST_LINE = 7,
    VISKORREL_LINE_INTERPOLATE_POINT = 8
};

enum viskorrel_batch_result {
    VISKORREL_BATCH_DONE = 0,
    VISKORREL_BATCH_NO_MEMORY = 1, /* elements from the one that asked for it on are not written */
    VISKORREL_BATCH_BAD_CALL = 2   /* unknown operation, or a place outside a list; nothing is written */
};

/* Blobs, each with its length in bytes. A blob of length 0 may be null. */
typedef struct viskorrel_blobs {
    const uint8_t *const *blobs;
    const size_t *lengths;
    size_t count;
} viskorrel_blobs;

/*
 * Which blobs are measured, and with which numbers: element k takes a[first[k]], b[second[k]] and numbers[k]. Where first or second is null,
 * k itself is the place, or 0 in a list of one blob. numbers_count is 1 (one number for all), as many as there are elements, or 0 where
 * the operation takes none.
 */
typedef struct viskorrel_pairs {
    const size_t *first;
    const size_t *second;
    const double *numbers;
    size_t numbers_count;
    size_t from; /* elements from this one on, */
    size_t to;   /* up to this one, which is no more part of them */
} viskorrel_pairs;

/*
 * Where the answers go, element by element: a reply's fields. values is for the two distances, output for the operations that write a blob
 * (VISKORREL_POINT_BYTES or VISKORREL_LINE_BYTES for each element); they may be null for the others. Nothing is written but elements
 * from..to; an output is written only where the outcome is VISKORREL_ANSWERED.
 */
typedef struct viskorrel_answers {
    uint8_t *outcomes;
    uint8_t *numbers; /* of refusals */
    uint8_t *sides;   /* of refusals */
    double *values;
    uint8_t *output;
} viskorrel_answers;

/*
 * One operation on many elements, all by one rule, VISKORREL_RULE_1 or VISKORREL_RULE_2; an operation that takes no rule does not look at
 * it. A refused element has its outcome, number and side, as the operation alone gives them, and the batch goes on.
 * VISKORREL_LINE_INTERPOLATE_POINT looks at a only, and b may be null.
 */
int viskorrel_batch(
    uint32_t operation, const viskorrel_blobs *a, const viskorrel_blobs *b, uint32_t rule, const viskorrel_pairs *pairs,
    const viskorrel_answers *answers);

/*
 * BOXES. Six numbers for each blob: least x, y, z, greatest x, y, z of its coordinates. A blob that is refused, has a ring, neither point nor
 * segment, or an x, y or z that is NaN or above 1e30 in size gets the box of everything (minus infinity to infinity), which is never passed
 * over. M is no part of a box.
 */
int viskorrel_boxes(const viskorrel_blobs *blobs, double *boxes);

/*
 * Where the answers of viskorrel_nearest go, element by element. Outcome VISKORREL_ANSWERED: places has the place of the nearest in b,
 * values the distance. Where a pair is refused, has no distance, or one that is not finite, the element ends there: places has that pair's
 * place, and outcomes, numbers, sides and values what it gave. Where b is empty, the outcome is VISKORREL_NOTHING and the place 0.
 * measured counts the pairs that were measured.
 */
typedef struct viskorrel_nearest_answers {
    uint8_t *outcomes;
    uint8_t *numbers;
    uint8_t *sides;
    double *values;
    size_t *places;
    size_t *measured;
} viskorrel_nearest_answers;

/*
 * For each blob of a from..to the nearest of b by viskorrel_3d_distance with this rule, the first of several as near. With boxes (of
 * viskorrel_boxes, both or none) a pair is passed over where its boxes alone show that its distance, as it would be computed, is above the
 * least so far. The answers are the same with boxes and without them (shared/batch.c says why), pairs that are measured aside.
 */
int viskorrel_nearest(
    const viskorrel_blobs *a, const viskorrel_blobs *b, uint32_t rule, const double *a_boxes, const double *b_boxes, size_t from, size_t to,
    const viskorrel_nearest_answers *answers);

/*
 * Why a blob can't be a side of an operation on two blobs: outcome VISKORREL_REFUSED with the number that the operation gives, else
 * VISKORREL_ANSWERED. VISKORREL_NOTHING: there was no memory to look.
 */
viskorrel_reply viskorrel_blob_refusal(const uint8_t *blob, size_t length);

/* VISKORREL_VERSION of the header that the shared object was built with. */
const char *viskorrel_version(void);

#ifdef __cplusplus
}
#endif

#endif
