/*
 * One call of an operation, with as much memory as it takes: for batch.c and for SQLite's functions. The proved library decides every
 * answer. No part of what is exported.
 */
#ifndef VISKORREL_MEASURE_H
#define VISKORREL_MEASURE_H

#include "viskorrel_batch.h"

/* Lent memory; null where the length is 0. */
struct buffer {
    void *memory;
    size_t length; /* in elements */
};

/* A blob, and the workspace that it is read into. */
struct side {
    const uint8_t *blob;
    size_t length;
    struct buffer floats; /* double */
    struct buffer table;  /* uint32_t */
};

/* Both sides. Their workspaces are kept from call to call. */
struct measurer {
    struct side sides[2];
    void *(*allocate)(size_t bytes); /* null where there is no memory */
    void (*release)(void *memory);   /* takes null too */
};

struct measurer measurer_of(void *(*allocate)(size_t bytes), void (*release)(void *memory));
void release_workspaces(struct measurer *m);

/* Sets a side's blob; null stands for one of no bytes. */
void set_blob(struct side *side, const uint8_t *blob, size_t length);

/* What is asked of the blobs that were set. */
struct question {
    uint32_t operation;
    double number; /* where it takes one */
    uint32_t rule; /* where it takes one */
};

/* An operation on the blobs that were set; 0 if there is no memory. */
int measure(struct measurer *m, const struct question *q, uint8_t *output, size_t output_length, viskorrel_reply *reply);

/* Reads a blob as side 1 of an operation on two, so that its coordinates stand in the workspace; 0 if there is no memory. */
int read_blob(struct measurer *m, const uint8_t *blob, size_t length, viskorrel_reply *reply);

/* viskorrel_blob_refusal, with this memory. */
viskorrel_reply refusal_of(struct measurer *m, const uint8_t *blob, size_t length);

#endif
