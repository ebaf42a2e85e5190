/*
 * Traces through the archive and through the second program, side by side:
 * what is read is compared, written back, and compared with the bytes.
 */
#ifndef TRACES_H
#define TRACES_H

#include "damage.h"
#include "pair.h"
#include "trace.h"

/* A trace as the two readers go through it, and as the archive writes it. */
struct course {
    const struct bytes *trace;
    struct reader second;
    size_t at;
    struct bytes *copy;
};

/* Both read the head, or both refuse it with the number returned. */
int both_open(struct where at, struct course *c, struct sizes *z);

/* Both read a step (0), are at the end (TRACE_END), or refuse. */
int both_next(struct where at, struct course *c, struct step *s);

/* Reads at places where no record need begin, and writes into buffers that may
   be too short. */
void try_places(struct random *r, struct where at, const struct bytes *trace);
void try_buffers(struct random *r, struct where at, const struct sizes *z);

#endif
