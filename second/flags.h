/*
 * Event flags from step to step: what document 02 (2/13) promises of them, and
 * how often they came late.
 */
#ifndef FLAGS_H
#define FLAGS_H

#include "moment.h"

/* Whether an accepted step lost no flag and made none up: of each thread those
   are pending that were before and that the step signals to it, less what a
   wait of its answers; and a wait that goes on with 0 answers all of them in
   its mask. */
bool flags_add_up(const struct moment *m);

/* What became of event waits that slept, and how often. */
struct flags_seen {
    uint64_t woken;     /* went on with message 0 */
    uint64_t late;      /* of these: with flags that came after the waking */
    uint64_t beside;    /* of these: flags outside the mask stayed pending */
    uint64_t empty;     /* of these: without a flag */
    uint64_t timed_out; /* went on with another message */
    uint64_t kept;      /* of these: flags in the mask stayed pending */
    uint64_t found;     /* waits that took such flags at once */
    /* of each thread: its wait's flags that came after the waking, and those
       that a wait left behind */
    uint32_t after_waking[MAX_THREADS];
    uint32_t left_behind[MAX_THREADS];
};

/* A run begins, from any tables; then come its moments, in their order. */
void begin_flags(struct flags_seen *seen);
void note_flags(struct flags_seen *seen, const struct moment *m);

#endif
