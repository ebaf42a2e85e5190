/* Pairs of plants to be compared, made from a plant that lives. */
#ifndef APART_H
#define APART_H

#include "director.h"
#include "pair.h"

/* What is between the two of a pair. One of them is the living plant. */
enum apart_way {
    APART_NOTHING, /* not a byte */
    APART_UNUSED,  /* bytes that do not count */
    APART_STEPS,   /* a few steps */
    APART_LIVES,   /* all steps: another plant of the same sizes */
    APART_FIELD,   /* one field, mostly so that the tables hang together */
    APART_RINGS,   /* mailboxes and free lists, filled anew */
    APART_DAMAGE,  /* one of them is damaged, or both */
    APART_SIZES,   /* sizes or slots */
    APART_WAYS
};

const char *apart_name(uint32_t way);

/* A plant at the second program's, and who chooses its steps. It is not
   copied: the director keeps hold of its random numbers. */
struct life {
    struct random random;
    struct director director;
    struct tables tables;
};

void begin_life(struct life *l, uint64_t seed);
void live(struct life *l, uint32_t steps);

struct two_plants {
    struct plant first;
    struct plant second;
};

/* Either of them may be the living plant. */
void part(struct life *l, uint32_t way, struct two_plants *two);

#endif
