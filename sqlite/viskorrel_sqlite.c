/*
 * Viskorrel as SQL functions: a loadable extension of SQLite. README.md says what each function answers.
 *
 * The library decides every answer and every refusal. Here are only: the types of the arguments and the memory that is lent.
 */
#include <stddef.h>
#include <stdint.h>

#include <sqlite3ext.h>
SQLITE_EXTENSION_INIT1

#include "measure.h"
#include "viskorrel_words.h"

#define EXPORTED __attribute__((visibility("default")))

/* ---- The functions ---- */

/* What a function takes, and what it gives. */
enum form {
    DISTANCE,     /* two blobs, and a rule where it takes one; a number or NULL */
    QUESTION,     /* two blobs and a rule; 0 or 1 */
    WITHIN,       /* two blobs and a distance, and a rule where it takes one; 0 or 1 */
    POINT,        /* two blobs and a rule; a point or NULL */
    LINE,         /* two blobs, and a rule where it takes one; a line or NULL */
    INTERPOLATED, /* a blob and a fraction; a point */
    PATCH,        /* a blob and a number from 1 on; a part of the blob, or NULL */
    JOIN,         /* two blobs; a collection of both */
    REFUSAL,      /* anything; NULL or words */
    VERSION       /* nothing; words */
};

struct function {
    const char *name;
    enum form form;
    int arguments;      /* how many, the rule aside */
    int blobs;          /* how many of them, from the first on, are blobs */
    int rules;          /* whether a rule may stand after them */
    uint32_t operation; /* of the library, where it is a measure: all but the last four */
};

static const struct function functions[] = {
    {"ST_3DDistance", DISTANCE, 2, 2, 1, VISKORREL_DISTANCE},
    {"ST_3DMaxDistance", DISTANCE, 2, 2, 0, VISKORREL_MAX_DISTANCE},
    {"ST_3DIntersects", QUESTION, 2, 2, 1, VISKORREL_INTERSECTS},
    {"ST_3DDWithin", WITHIN, 3, 2, 1, VISKORREL_DWITHIN},
    {"ST_3DDFullyWithin", WITHIN, 3, 2, 0, VISKORREL_DFULLY_WITHIN},
    {"ST_3DClosestPoint", POINT, 2, 2, 1, VISKORREL_CLOSEST_POINT},
    {"ST_3DShortestLine", LINE, 2, 2, 1, VISKORREL_SHORTEST_LINE},
    {"ST_3DLongestLine", LINE, 2, 2, 0, VISKORREL_LONGEST_LINE},
    {"ST_3DLineInterpolatePoint", INTERPOLATED, 2, 1, 0, VISKORREL_LINE_INTERPOLATE_POINT},
    {"ST_PatchN", PATCH, 2, 1, 0, 0},
    {"Viskorrel_Join", JOIN, 2, 2, 0, 0},
    {"Viskorrel_Refusal", REFUSAL, 1, 0, 0, 0},
    {"Viskorrel_Version", VERSION, 0, 0, 0, 0},
};

#define FUNCTIONS (sizeof functions / sizeof functions[0])
#define NO_RULE 17 /* the refusal */

/* ---- Lent memory ---- */

struct connection;

/* A function's user data. */
struct binding {
    const struct function *function;
    struct connection *connection;
};

/* One for each loading: SQLite runs the functions of one connection one at a time. */
struct connection {
    size_t users; /* functions, by name and number of arguments, that SQLite still holds, and the loading while it lasts */
    struct measurer measurer;
    struct binding bindings[FUNCTIONS];
};

static void release(struct connection *connection)
{
    if (--connection->users > 0)
        return;
    release_workspaces(&connection->measurer);
    sqlite3_free(connection);
}

static void release_binding(void *data)
{
    release(((struct binding *)data)->connection);
}

/* Memory of SQLite's, so that its limits hold. */
static void *allocate(size_t bytes)
{
    return sqlite3_malloc64(bytes);
}

/* ---- Errors ---- */

/* An argument of 0 is not named. */
static void error(sqlite3_context *context, const struct function *f, int argument, const char *words)
{
    char *text = argument > 0 ? sqlite3_mprintf("%s: argument %d: %s", f->name, argument, words) : sqlite3_mprintf("%s: %s", f->name, words);

    if (text)
        sqlite3_result_error(context, text, -1);
    else
        sqlite3_result_error_nomem(context);
    sqlite3_free(text);
}

/* A refusal in words: its number, its condition, and what to do about the blob where that is known. Null if there is no memory. */
static char *words_of(uint32_t number, const uint8_t *blob, size_t length)
{
    const char *advice = viskorrel_advice(number, blob, length);

    return sqlite3_mprintf("%u, %s%s%s", (unsigned)number, viskorrel_words(number), advice ? "; " : "", advice ? advice : "");
}

/* ---- Calls ---- */

/* The rule of a value; 0, which is none, where it is anything but the whole number 1 or 2: a longer one is not to be cut to one of them. */
static uint32_t rule_of(sqlite3_value *value)
{
    sqlite3_int64 number = sqlite3_value_type(value) == SQLITE_INTEGER ? sqlite3_value_int64(value) : 0;

    return number == VISKORREL_RULE_1 || number == VISKORREL_RULE_2 ? (uint32_t)number : 0;
}

/* A function, and what the arguments say; the blobs are those of the measurer's sides. */
struct call {
    const struct function *function;
    struct measurer *measurer;
    struct question question; /* its number is a distance or a fraction */
    sqlite3_int64 index;      /* of a patch */
};

static void refused(sqlite3_context *context, const struct call *c, uint32_t number, uint32_t side)
{
    const struct function *f = c->function;
    const struct side *s = side >= 1 && side <= 2 ? &c->measurer->sides[side - 1] : 0;
    /* the number stands after the blobs, the rule after all others */
    int argument = number == NO_RULE ? f->arguments + 1 : number == 1 || number == 2 ? f->blobs + 1 : (int)side;
    char *text = s ? words_of(number, s->blob, s->length) : words_of(number, 0, 0);

    if (text)
        error(context, f, argument, text);
    else
        sqlite3_result_error_nomem(context);
    sqlite3_free(text);
}

/* Sets the blobs; 0 if one is none, or if there is no memory: the error is given. */
static int read_blobs(sqlite3_context *context, sqlite3_value **values, const struct call *call)
{
    const struct function *f = call->function;
    int i;

    for (i = 0; i < f->blobs; i++) {
        const uint8_t *blob;
        size_t length;

        if (sqlite3_value_type(values[i]) != SQLITE_BLOB) {
            error(context, f, i + 1, "not a blob");
            return 0;
        }
        blob = sqlite3_value_blob(values[i]);
        length = (size_t)sqlite3_value_bytes(values[i]);
        if (!blob && length > 0) {
            sqlite3_result_error_nomem(context);
            return 0;
        }
        set_blob(&call->measurer->sides[i], blob, length);
    }
    return 1;
}

/* Reads the arguments; 0 if it has given the result already: NULL or an error. */
static int read_arguments(sqlite3_context *context, int count, sqlite3_value **values, struct call *call)
{
    struct binding *binding = sqlite3_user_data(context);
    const struct function *f = binding->function;
    int i, type;

    call->function = f;
    call->measurer = &binding->connection->measurer;
    call->question.operation = f->operation;
    for (i = 0; i < count; i++)
        if (sqlite3_value_type(values[i]) == SQLITE_NULL)
            return 0;
    if (!read_blobs(context, values, call))
        return 0;
    call->question.rule = count > f->arguments ? rule_of(values[f->arguments]) : VISKORREL_RULE_1;
    if (f->blobs == f->arguments)
        return 1;
    type = sqlite3_value_type(values[f->blobs]);
    if (f->form == PATCH) {
        if (type != SQLITE_INTEGER) {
            error(context, f, f->blobs + 1, "not a whole number");
            return 0;
        }
        call->index = sqlite3_value_int64(values[f->blobs]);
    } else {
        if (type != SQLITE_INTEGER && type != SQLITE_FLOAT) {
            error(context, f, f->blobs + 1, "not a number");
            return 0;
        }
        call->question.number = sqlite3_value_double(values[f->blobs]);
    }
    return 1;
}

/* Every measure: all functions but the last four. */
static void operation(sqlite3_context *context, int count, sqlite3_value **values)
{
    struct call call = {0};
    uint8_t output[VISKORREL_LINE_BYTES];
    viskorrel_reply reply;

    if (!read_arguments(context, count, values, &call))
        return;
    if (!measure(call.measurer, &call.question, output, sizeof output, &reply)) {
        sqlite3_result_error_nomem(context);
        return;
    }
    if (reply.outcome == VISKORREL_REFUSED) {
        refused(context, &call, reply.number, reply.side);
        return;
    }
    switch (call.function->form) {
    case DISTANCE:
        if (reply.outcome != VISKORREL_ANSWERED)
            return;
        if (reply.value != reply.value)
            error(context, call.function, 0, "the distance is NaN");
        else
            sqlite3_result_double(context, reply.value);
        return;
    case QUESTION:
    case WITHIN:
        sqlite3_result_int(context, reply.outcome == VISKORREL_ANSWERED);
        return;
    case POINT:
    case INTERPOLATED:
        if (reply.outcome == VISKORREL_ANSWERED)
            sqlite3_result_blob(context, output, VISKORREL_POINT_BYTES, SQLITE_TRANSIENT);
        return;
    case LINE:
        if (reply.outcome == VISKORREL_ANSWERED)
            sqlite3_result_blob(context, output, VISKORREL_LINE_BYTES, SQLITE_TRANSIENT);
        return;
    default:
        return;
    }
}

/* ST_PatchN: NULL where there is no such patch, or no surface. */
static void patch(sqlite3_context *context, int count, sqlite3_value **values)
{
    struct call call = {0};
    const struct side *surface;
    viskorrel_pair part;
    uint64_t n;

    if (!read_arguments(context, count, values, &call))
        return;
    surface = &call.measurer->sides[0];
    /* Below 1 there is no patch, nor at the greatest number: a surface counts them in 32 bits. */
    n = call.index >= 1 ? (uint64_t)call.index - 1 : UINT64_MAX;
    part = viskorrel_patch(surface->blob, surface->length, n);
    if (part.outcome == VISKORREL_REFUSED)
        refused(context, &call, part.number, part.side);
    else if (part.outcome == VISKORREL_ANSWERED)
        sqlite3_result_blob64(context, surface->blob + part.first, part.second - part.first, SQLITE_TRANSIENT);
}

/* Viskorrel_Join: the output always suffices, so that 16 is not met. */
static void join(sqlite3_context *context, int count, sqlite3_value **values)
{
    struct call call = {0};
    const struct side *a, *b;
    viskorrel_pair size;
    size_t lent;
    uint8_t *output;

    if (!read_arguments(context, count, values, &call))
        return;
    a = &call.measurer->sides[0];
    b = &call.measurer->sides[1];
    lent = a->length + b->length + VISKORREL_JOIN_BYTES;
    output = allocate(lent);
    if (!output) {
        sqlite3_result_error_nomem(context);
        return;
    }
    size = viskorrel_join(a->blob, a->length, b->blob, b->length, output, lent);
    if (size.outcome == VISKORREL_REFUSED) {
        refused(context, &call, size.number, size.side);
        sqlite3_free(output);
    } else
        sqlite3_result_blob64(context, output, size.first, sqlite3_free);
}

/* Viskorrel_Refusal: NULL for NULL, and for a blob that an operation on two blobs accepts. */
static void refusal(sqlite3_context *context, int count, sqlite3_value **values)
{
    struct binding *binding = sqlite3_user_data(context);
    const uint8_t *blob;
    size_t length;
    viskorrel_reply reply;
    char *text;

    (void)count;
    if (sqlite3_value_type(values[0]) == SQLITE_NULL)
        return;
    if (sqlite3_value_type(values[0]) != SQLITE_BLOB) {
        sqlite3_result_text(context, "not a blob", -1, SQLITE_STATIC);
        return;
    }
    blob = sqlite3_value_blob(values[0]);
    length = (size_t)sqlite3_value_bytes(values[0]);
    reply = refusal_of(&binding->connection->measurer, blob, length);
    if (reply.outcome == VISKORREL_ANSWERED)
        return;
    text = reply.outcome == VISKORREL_REFUSED ? words_of(reply.number, blob, length) : 0;
    if (text)
        sqlite3_result_text(context, text, -1, sqlite3_free);
    else
        sqlite3_result_error_nomem(context);
}

static void version(sqlite3_context *context, int count, sqlite3_value **values)
{
    (void)count;
    (void)values;
    sqlite3_result_text(context, VISKORREL_VERSION, -1, SQLITE_STATIC);
}

/* ---- Loading ---- */

static void (*body(enum form form))(sqlite3_context *, int, sqlite3_value **)
{
    switch (form) {
    case PATCH:
        return patch;
    case JOIN:
        return join;
    case REFUSAL:
        return refusal;
    case VERSION:
        return version;
    default:
        return operation;
    }
}

/* Makes a function known, once without a rule and once with it where it may have one. */
static int create(sqlite3 *db, struct binding *binding)
{
    const struct function *f = binding->function;
    int rc = SQLITE_OK, more;

    for (more = 0; more <= f->rules && rc == SQLITE_OK; more++) {
        binding->connection->users++; /* SQLite releases it also where it fails */
        rc = sqlite3_create_function_v2(
            db, f->name, f->arguments + more, SQLITE_UTF8 | SQLITE_DETERMINISTIC | SQLITE_INNOCUOUS, binding, body(f->form), 0, 0,
            release_binding);
    }
    return rc;
}

EXPORTED int sqlite3_viskorrelsqlite_init(sqlite3 *db, char **message, const sqlite3_api_routines *api)
{
    struct connection *connection;
    int rc = SQLITE_OK;
    size_t i;

    SQLITE_EXTENSION_INIT2(api);
    connection = sqlite3_malloc64(sizeof *connection);
    if (!connection)
        return SQLITE_NOMEM;
    connection->users = 1;
    connection->measurer = measurer_of(allocate, sqlite3_free);
    for (i = 0; i < FUNCTIONS && rc == SQLITE_OK; i++) {
        connection->bindings[i].function = &functions[i];
        connection->bindings[i].connection = connection;
        rc = create(db, &connection->bindings[i]);
        if (rc != SQLITE_OK)
            *message = sqlite3_mprintf("%s: %s", functions[i].name, sqlite3_errmsg(db));
    }
    release(connection);
    return rc;
}
