/*
 * The director chooses the next step of a random trace, knowing the tables.
 * It works in moods that last some steps, each around one object: threads
 * gather at it, are served, rob each other of what was meant for them, cross
 * each other at the two sides of a mailbox, or the clock runs; so long chains of
 * blocked threads come about and end in all the ways the paper knows.
 */
#ifndef DIRECTOR_H
#define DIRECTOR_H

#include "model.h"
#include "random.h"

enum family {
    SEMAPHORES,
    QUEUES,
    REFERENCES,
    EVENTS,
    MAILBOXES,
    POOLS,
    SLEEPS,
    FAMILIES /* their number; as a focus: none in particular */
};

enum mood { GATHER, SERVE, ROB, CROSS, CLOCK, MIX, MOODS };

struct director {
    struct random *random;
    uint32_t focus;        /* the family preferred, or FAMILIES */
    uint32_t wild_percent; /* steps that need not be acceptable */
    uint32_t mood;
    uint32_t left;         /* steps left in this mood */
    uint32_t family;
    uint32_t object;
    uint32_t wait_kind;    /* the kind that gathers */
    uint32_t timeout;      /* shared, so that many run out in one tick */
};

struct director new_director(struct random *random, uint32_t focus,
                             uint32_t wild_percent);
struct step next_step(struct director *d, const struct tables *t);
/* How many objects of a family the sizes have. */
uint32_t family_size(const struct sizes *z, uint32_t family);

#endif
