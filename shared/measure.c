/* One call of an operation (measure.h). */
#include "measure.h"

/* ---- Lent memory ---- */

struct measurer measurer_of(void *(*allocate)(size_t bytes), void (*release)(void *memory))
{
    struct measurer m = {.allocate = allocate, .release = release};

    return m;
}

void release_workspaces(struct measurer *m)
{
    int i;

    for (i = 0; i < 2; i++) {
        m->release(m->sides[i].floats.memory);
        m->release(m->sides[i].table.memory);
    }
}

/*
 * Makes a buffer long enough; what it held is lost. 0 if there is no memory. One that grows has at least twice the length it had, so that
 * rising sizes are not all followed.
 */
static int lengthen(const struct measurer *m, struct buffer *b, size_t needed, size_t element)
{
    size_t length = b->length > SIZE_MAX / 2 || needed > 2 * b->length ? needed : 2 * b->length;

    if (needed <= b->length)
        return 1;
    m->release(b->memory);
    b->length = 0;
    b->memory = length > SIZE_MAX / element ? 0 : m->allocate(length * element);
    if (!b->memory)
        return 0;
    b->length = length;
    return 1;
}

/* Makes a side's workspace long enough for its blob; 0 if there is no memory. */
static int make_room(const struct measurer *m, struct side *side)
{
    viskorrel_pair sizes = viskorrel_sizes(side->blob, side->length);

    return lengthen(m, &side->floats, sizes.first, sizeof(double)) && lengthen(m, &side->table, sizes.second, sizeof(uint32_t));
}

/* ---- One call ---- */

void set_blob(struct side *side, const uint8_t *blob, size_t length)
{
    static const uint8_t no_byte = 0;

    side->blob = blob ? blob : &no_byte;
    side->length = blob ? length : 0;
}

/* The memory at hand; where there is none yet, an address that is lent with length 0. */
#define FLOATS(side) ((side).floats.memory ? (side).floats.memory : &no_float), (side).floats.length
#define TABLE(side) ((side).table.memory ? (side).table.memory : &no_number), (side).table.length
#define BLOB(side) (side).blob, (side).length
#define BLOBS BLOB(s[0]), BLOB(s[1])
#define WORKSPACES FLOATS(s[0]), TABLE(s[0]), FLOATS(s[1]), TABLE(s[1])

/* Asks the library once, with the workspaces as they are. */
static viskorrel_reply ask(const struct question *q, const struct side *s, uint8_t *output, size_t output_length)
{
    double no_float = 0;
    uint32_t no_number = 0;
    viskorrel_reply unknown = {VISKORREL_NOTHING, 0, 0, 0};

    switch (q->operation) {
    case VISKORREL_DISTANCE:
        return viskorrel_3d_distance(BLOBS, q->rule, WORKSPACES);
    case VISKORREL_MAX_DISTANCE:
        return viskorrel_3d_max_distance(BLOBS, WORKSPACES);
    case VISKORREL_INTERSECTS:
        return viskorrel_3d_intersects(BLOBS, q->rule, WORKSPACES);
    case VISKORREL_DWITHIN:
        return viskorrel_3d_dwithin(BLOBS, q->number, q->rule, WORKSPACES);
    case VISKORREL_DFULLY_WITHIN:
        return viskorrel_3d_dfully_within(BLOBS, q->number, WORKSPACES);
    case VISKORREL_CLOSEST_POINT:
        return viskorrel_3d_closest_point(BLOBS, q->rule, WORKSPACES, output, output_length);
    case VISKORREL_SHORTEST_LINE:
        return viskorrel_3d_shortest_line(BLOBS, q->rule, WORKSPACES, output, output_length);
    case VISKORREL_LONGEST_LINE:
        return viskorrel_3d_longest_line(BLOBS, WORKSPACES, output, output_length);
    case VISKORREL_LINE_INTERPOLATE_POINT:
        return viskorrel_3d_line_interpolate_point(BLOB(s[0]), q->number, FLOATS(s[0]), TABLE(s[0]), output, output_length);
    }
    return unknown;
}

/*
 * A workspace that is too short (15) is refused only after everything else was checked, and nothing has changed then: make room, ask again,
 * once for each side.
 */
int measure(struct measurer *m, const struct question *q, uint8_t *output, size_t output_length, viskorrel_reply *reply)
{
    int again;

    *reply = ask(q, m->sides, output, output_length);
    for (again = 0; again < 2 && reply->outcome == VISKORREL_REFUSED && reply->number == 15; again++) {
        if (!make_room(m, &m->sides[reply->side == 2 ? 1 : 0]))
            return 0;
        *reply = ask(q, m->sides, output, output_length);
    }
    return 1;
}

/* ---- One blob ---- */

/* A point with Z: any operation on two blobs reads the other side whole. */
static const uint8_t point[29] = {1, 0xE9, 3};

int read_blob(struct measurer *m, const uint8_t *blob, size_t length, viskorrel_reply *reply)
{
    static const struct question max_distance = {VISKORREL_MAX_DISTANCE, 0, 0};

    set_blob(&m->sides[0], blob, length);
    set_blob(&m->sides[1], point, sizeof point);
    return measure(m, &max_distance, 0, 0, reply);
}

viskorrel_reply refusal_of(struct measurer *m, const uint8_t *blob, size_t length)
{
    viskorrel_reply reply;

    if (!read_blob(m, blob, length, &reply))
        reply.outcome = VISKORREL_NOTHING;
    else if (reply.outcome != VISKORREL_REFUSED)
        reply.outcome = VISKORREL_ANSWERED;
    return reply;
}
