/* Damages to a plant's tables: one field, a few, a stretch, or all of them; to
   the words of good tables; and what comes from outside, counters near the top,
   causes, step numbers and event waits. */
#ifndef SPOIL_H
#define SPOIL_H

#include "pair.h"
#include "random.h"

enum spoil_way {
    ONE_FIELD,   /* one field of good tables gets another value */
    FEW_FIELDS,  /* two to five */
    ONE_BIT,     /* one bit of good tables */
    SOME_BYTES,  /* random bytes in a stretch of good tables */
    NEARLY_GOOD, /* several fields, so that at most one rule is broken */
    TWO_ROWS,    /* two threads in use exchange their records */
    BUT_SIZES,   /* random bytes in all places but the sizes and the clock */
    ALL_BYTES,   /* nothing but random bytes */
    /* the ready word, or the word of a place in use: */
    BIT_MISSING,  /* a thread that is ready, or waits there, is left out */
    BIT_TOO_MANY, /* one that is not, or does not */
    BIT_BEYOND,   /* one that there is not */
    OTHER_WORD,   /* some other word */
    UNUSED_WORDS, /* words of places not in use, and what fills the struct */
    /* a counter at 2147483647 or one below it: */
    SEMAPHORE_TOP, /* of a semaphore where nobody waits */
    POOL_TOP,      /* of a pool, whose free list never is so long */
    /* causes and step numbers: */
    CAUSE_OUTSIDE, /* a thread in use has a cause outside the list */
    CAUSE_UNUSED,  /* a row that is not in use has one */
    CAUSE_OTHER,   /* another cause of the list, and any number */
    LAST_NUMBERS,  /* the tables' step number is near its end, or there */
    /* a ready thread that does not run gets an event wait: */
    WAIT_NO_FLAG, /* woken with 0, and none of its flags is pending */
    WAIT_FLAGS,   /* woken with 0; flags in its mask are pending, and others */
    WAIT_MESSAGE, /* the same, timed out or with what no event wakes with */
    WAIT_MASK_0,  /* no flag is in its mask; it may await events as well */
    /* and these break a rule: */
    WAIT_AWAITED,    /* it awaits events, and one of its flags is pending */
    WAIT_OTHER_MASK, /* its awaited flags are not the call's mask */
    SPOIL_WAYS
};

const char *spoil_name(uint32_t way);

/* Whether the code of a step on good tables that were spoilt so can be: a wrong
   word is always refused with 1, and words not in use never are; a semaphore
   near the top never is, and a pool there always; a cause outside the list
   always is where its row is in use, and else neither causes nor step numbers
   are; event waits as their ways say. */
bool spoil_allows(uint32_t way, uint32_t code);

void spoil(struct random *r, uint32_t way, struct plant *plant);

#endif
