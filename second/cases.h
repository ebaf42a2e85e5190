/* How often the cases came that the account of a run turns on. */
#ifndef CASES_H
#define CASES_H

#include "account.h"

struct cases_seen {
    uint64_t posted;
    uint64_t fetched;
    uint64_t fetched_at_once; /* in the step of the posting */
    uint64_t threads_post;    /* of these: a thread's step posted it */
    uint64_t interrupts_post; /* of these: an interrupt's step posted it */
    uint64_t own_fetch;       /* of these: the step itself fetches, having
                                 slept in between */
    uint64_t ahead;           /* posted ahead */
    uint64_t passing;         /* of these: before messages that were there */
    uint64_t lost;
    uint64_t losing;          /* resets that lost a message at least */
    uint64_t taken;           /* objects handed over */
    uint64_t freed_at_once;   /* of these: freed in the same step */
    uint64_t added_at_once;   /* of these: added in the same step */
    uint64_t promised;        /* steps that leave a promised object free */
    uint64_t by_interrupt[POOL_ADD + 1]; /* calls answered with 0 */
};

/* An accepted step, after its calls were entered. Steps count from 1. */
void note_cases(struct cases_seen *seen, const struct account *a,
                uint32_t step, const struct finished_calls *told,
                const struct moment *m);
void print_cases(const struct cases_seen *seen);

#endif
