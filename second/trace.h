/* Traces: a reader over bytes that stay where they are, and a writer. */
#ifndef TRACE_H
#define TRACE_H

#include "model.h"

#include <stddef.h>

enum {
    TRACE_LIMIT = 60000,
    TRACE_VERSION = 1,
    LENGTH_BYTES = 2,
    SIZES_BYTES = 6, /* of record 0, before the slots */
    STEP_BYTES = 11
};

/* Refusals of reader and writer; 14 is model.h's BAD_SIZE. */
enum trace_refusal {
    BAD_VERSION = 11,
    CUT_SHORT = 12,
    BAD_LENGTH = 13,
    TOO_LONG = 15,
    NO_SPACE = 16
};

/* Answer of trace_next where the trace ends after a whole record. */
enum { TRACE_END = -1 };

/* "A trace reader keeps hold of the trace and its place in it." */
struct reader {
    const uint8_t *bytes;
    size_t length;
    size_t offset;
    uint32_t record; /* number of the record at the offset */
};

/* Reads version and record 0. Returns 0, or the refusal; the reader then
   stands at record 0, and the sizes are left alone. */
int trace_open(struct reader *r, const uint8_t *bytes, size_t length,
               struct sizes *sizes);

/* Reads one step. Returns 0, TRACE_END, or the refusal of record r->record;
   but for 0 nothing is moved and no step given. */
int trace_next(struct reader *r, struct step *step);

/* Writes a whole trace. Returns 0 with the bytes' number in *length, or the
   refusal with nothing written. */
int trace_write(const struct sizes *sizes, const struct step *steps,
                size_t count, uint8_t *buffer, size_t space, size_t *length);

#endif
