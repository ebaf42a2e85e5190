/*
 * Causes of wakings from step to step: what document 02 (7/13) promises of
 * them, and how often each came.
 */
#ifndef CAUSES_H
#define CAUSES_H

#include "moment.h"

/* NULL, or what is wrong with a step, accepted or refused. An accepted step
   counts up the step number, until it stays at its last one. A thread that it
   woke has this number and the cause that goes with where the thread waited,
   and a message that goes with the cause; every other thread keeps both. A
   refused step changes none of it. */
const char *unlike_causes(const struct moment *m);

/* Wakings, and what came of causes and step numbers beside them. */
struct causes_seen {
    uint64_t by[CAUSES];
    uint64_t settled;      /* by a continued call, where the step's own kind has
                              another cause */
    uint64_t settled_none; /* the same, where it has none */
    uint64_t own;          /* of the thread that made the step */
    uint64_t ended;        /* threads whose call ended after an earlier waking */
    uint64_t asleep_again; /* threads that sleep again after one */
    uint64_t refused;      /* steps, with a cause in the tables */
    uint64_t last;         /* accepted steps at the last number */
    uint64_t reached;      /* accepted steps that came to it */
};

void note_causes(struct causes_seen *seen, const struct moment *m);
/* A line each: the wakings; what was kept, and the last number. */
void print_wakings(const struct causes_seen *seen);
void print_kept(const struct causes_seen *seen);

#endif
