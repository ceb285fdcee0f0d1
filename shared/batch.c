/* Many measures in one call (include/viskorrel_batch.h): which blobs, and where the answers go. measure.c asks the proved library. */
#include <math.h>
#include <stdlib.h>

#include "measure.h"

#define EXPORTED __attribute__((visibility("default")))

/* ---- Batches ---- */

/* What an operation writes for each element, and what it takes. */
static size_t output_bytes(uint32_t operation)
{
    switch (operation) {
    case VISKORREL_CLOSEST_POINT:
    case VISKORREL_LINE_INTERPOLATE_POINT:
        return VISKORREL_POINT_BYTES;
    case VISKORREL_SHORTEST_LINE:
    case VISKORREL_LONGEST_LINE:
        return VISKORREL_LINE_BYTES;
    }
    return 0;
}

static int takes_number(uint32_t operation)
{
    return operation == VISKORREL_DWITHIN || operation == VISKORREL_DFULLY_WITHIN || operation == VISKORREL_LINE_INTERPOLATE_POINT;
}

static int answers_value(uint32_t operation)
{
    return operation == VISKORREL_DISTANCE || operation == VISKORREL_MAX_DISTANCE;
}

static size_t place(const viskorrel_blobs *list, const size_t *places, size_t k)
{
    if (places)
        return places[k];
    return list->count == 1 ? 0 : k;
}

/* Whether every element's places stand in their lists, and its number is there. */
static int is_whole(uint32_t operation, const viskorrel_blobs *a, const viskorrel_blobs *b, const viskorrel_pairs *pairs)
{
    size_t k;

    if (operation > VISKORREL_LINE_INTERPOLATE_POINT || (!b && operation != VISKORREL_LINE_INTERPOLATE_POINT))
        return 0;
    if (takes_number(operation) && pairs->numbers_count != 1 && pairs->numbers_count < pairs->to)
        return 0;
    for (k = pairs->from; k < pairs->to; k++)
        if (place(a, pairs->first, k) >= a->count || (b && place(b, pairs->second, k) >= b->count))
            return 0;
    return 1;
}

static void set_from(struct side *side, const viskorrel_blobs *list, size_t at)
{
    set_blob(side, list->blobs[at], list->lengths[at]);
}

EXPORTED int viskorrel_batch(
    uint32_t operation, const viskorrel_blobs *a, const viskorrel_blobs *b, uint32_t rule, const viskorrel_pairs *pairs,
    const viskorrel_answers *answers)
{
    struct measurer m = measurer_of(malloc, free);
    struct question question = {operation, 0, rule};
    size_t bytes = output_bytes(operation), k;
    int result = VISKORREL_BATCH_DONE;

    if (!is_whole(operation, a, b, pairs))
        return VISKORREL_BATCH_BAD_CALL;
    for (k = pairs->from; k < pairs->to; k++) {
        viskorrel_reply reply;

        if (takes_number(operation))
            question.number = pairs->numbers[pairs->numbers_count == 1 ? 0 : k];
        set_from(&m.sides[0], a, place(a, pairs->first, k));
        if (b)
            set_from(&m.sides[1], b, place(b, pairs->second, k));
        if (!measure(&m, &question, bytes ? answers->output + k * bytes : 0, bytes, &reply)) {
            result = VISKORREL_BATCH_NO_MEMORY;
            break;
        }
        answers->outcomes[k] = (uint8_t)reply.outcome;
        answers->numbers[k] = (uint8_t)reply.number;
        answers->sides[k] = (uint8_t)reply.side;
        if (answers_value(operation))
            answers->values[k] = reply.value;
    }
    release_workspaces(&m);
    return result;
}

EXPORTED viskorrel_reply viskorrel_blob_refusal(const uint8_t *blob, size_t length)
{
    struct measurer m = measurer_of(malloc, free);
    viskorrel_reply reply = refusal_of(&m, blob, length);

    release_workspaces(&m);
    return reply;
}

/* ---- The nearest of many ----
 *
 * Why a pair may be passed over by its boxes. u is 2^-53, M the greatest size of a coordinate. Blobs with rings have no box, so no segment
 * meets a triangle, by either rule, and the measure of a pair is the computed distance of two points, each a vertex or a + t (b - a) on a
 * segment, computed axis by axis, t within 0..1. The exact a + t (b - a) lies in the box; three rounded operations on numbers of at most 2M
 * move it by less than 6 u M on each axis. Two such points are apart by at least G - 12 sqrt(3) u M > G - 21 u M, G being the exact distance
 * of the boxes. Differences, squares, sum and root take off at most 4 u of that, and as much may have been added to G where it is computed
 * here. So the computed distance is at least G (1 - 9 u) - 21 u M: where G is above reach = least (1 + 2^-40) + 2^-40 M, it is above the
 * least, with hundreds of times to spare over the roundings here. No number is above 1e30 in size, so nothing overflows and no distance is
 * NaN; what underflows is below 2^-500, and reach has 2^-400 for it.
 */
#define AXES 3
#define LARGEST 1e30
#define MARGIN 9.094947017729282e-13 /* 2^-40 */
#define TINY 3.872591914849318e-121  /* 2^-400 */

static void everything(double *box)
{
    int axis;

    for (axis = 0; axis < 3; axis++) {
        box[axis] = -HUGE_VAL;
        box[axis + 3] = HUGE_VAL;
    }
}

/* The box of a blob that was read into a workspace; 0 where it has none. A coordinate is x, y, z, m, and m is no place: it bounds nothing. */
static int span(const struct side *side, double *box)
{
    viskorrel_pair sizes = viskorrel_sizes(side->blob, side->length);
    const double *floats = side->floats.memory;
    const uint32_t *table = side->table.memory;
    int measurable = 0;
    size_t k;

    for (k = 0; k < sizes.second; k += 2) {
        if (table[k] > 2) /* neither points nor a line */
            return 0;
        if (table[k] == 1 || table[k + 1] > 1) /* a line of one vertex has no segment */
            measurable = 1;
    }
    for (k = 0; k < sizes.first; k++) {
        size_t axis = k % VISKORREL_COORDINATE_FLOATS;
        double number = floats[k];

        if (axis >= AXES)
            continue;
        if (!(fabs(number) <= LARGEST))
            return 0;
        if (k < AXES || number < box[axis])
            box[axis] = number;
        if (k < AXES || number > box[axis + AXES])
            box[axis + AXES] = number;
    }
    return measurable;
}

EXPORTED int viskorrel_boxes(const viskorrel_blobs *blobs, double *boxes)
{
    struct measurer m = measurer_of(malloc, free);
    int result = VISKORREL_BATCH_DONE;
    size_t k;

    for (k = 0; k < blobs->count; k++) {
        viskorrel_reply reply;

        if (!read_blob(&m, blobs->blobs[k], blobs->lengths[k], &reply)) {
            result = VISKORREL_BATCH_NO_MEMORY;
            break;
        }
        if (reply.outcome == VISKORREL_REFUSED || !span(&m.sides[0], boxes + 6 * k))
            everything(boxes + 6 * k);
    }
    release_workspaces(&m);
    return result;
}

/* The greatest size of a coordinate in some boxes, those of everything aside. */
static double greatest(const double *boxes, size_t from, size_t to)
{
    double most = 0;
    size_t k;

    for (k = 6 * from; k < 6 * to; k++)
        if (fabs(boxes[k]) <= LARGEST && fabs(boxes[k]) > most)
            most = fabs(boxes[k]);
    return most;
}

/* Whether two boxes are farther apart than a reach, given by its square. */
static int apart(const double *a, const double *b, double reach_squared)
{
    double sum = 0;
    int axis;

    for (axis = 0; axis < 3; axis++) {
        double gap = b[axis] - a[axis + 3], other = a[axis] - b[axis + 3];

        if (other > gap)
            gap = other;
        if (gap > 0)
            sum += gap * gap;
    }
    return sum > reach_squared;
}

static double squared_reach(double least, double largest)
{
    double reach = least + MARGIN * least + MARGIN * largest + TINY;

    return reach * reach;
}

struct boxes {
    const double *one;  /* of the blob of a, or null */
    const double *many; /* of b */
    double largest;
};

/* Element k: goes through b in order. 0 if there is no memory. */
static int nearest(
    struct measurer *m, const viskorrel_blobs *b, uint32_t rule, const struct boxes *boxes, size_t k,
    const viskorrel_nearest_answers *answers)
{
    const struct question distance = {VISKORREL_DISTANCE, 0, rule};
    viskorrel_reply reply = {VISKORREL_NOTHING, 0, 0, 0};
    double least = HUGE_VAL, reach = HUGE_VAL;
    size_t at, place = 0, count = 0;

    for (at = 0; at < b->count; at++) {
        if (boxes->one && apart(boxes->one, boxes->many + 6 * at, reach))
            continue;
        set_from(&m->sides[1], b, at);
        count++;
        if (!measure(m, &distance, 0, 0, &reply))
            return 0;
        if (reply.outcome != VISKORREL_ANSWERED || !(fabs(reply.value) < HUGE_VAL)) {
            place = at;
            break;
        }
        if (reply.value < least) {
            least = reply.value;
            reach = squared_reach(least, boxes->largest);
            place = at;
        }
        reply.value = least;
    }
    answers->outcomes[k] = (uint8_t)reply.outcome;
    answers->numbers[k] = (uint8_t)reply.number;
    answers->sides[k] = (uint8_t)reply.side;
    answers->values[k] = reply.value;
    answers->places[k] = place;
    answers->measured[k] = count;
    return 1;
}

EXPORTED int viskorrel_nearest(
    const viskorrel_blobs *a, const viskorrel_blobs *b, uint32_t rule, const double *a_boxes, const double *b_boxes, size_t from, size_t to,
    const viskorrel_nearest_answers *answers)
{
    struct measurer m = measurer_of(malloc, free);
    struct boxes boxes = {0, b_boxes, 0};
    int result = VISKORREL_BATCH_DONE;
    size_t k;

    if (from > to || to > a->count || !a_boxes != !b_boxes)
        return VISKORREL_BATCH_BAD_CALL;
    if (a_boxes)
        boxes.largest = greatest(a_boxes, from, to) + greatest(b_boxes, 0, b->count);
    for (k = from; k < to && result == VISKORREL_BATCH_DONE; k++) {
        set_from(&m.sides[0], a, k);
        boxes.one = a_boxes ? a_boxes + 6 * k : 0;
        if (!nearest(&m, b, rule, &boxes, k, answers))
            result = VISKORREL_BATCH_NO_MEMORY;
    }
    release_workspaces(&m);
    return result;
}

EXPORTED const char *viskorrel_version(void)
{
    return VISKORREL_VERSION;
}
