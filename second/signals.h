/*
 * Signals from step to step: what document 02 (6/13) promises of them, and how
 * often they came at the top.
 */
#ifndef SIGNALS_H
#define SIGNALS_H

#include "moment.h"

/* NULL, or what is wrong with a step. A signal counts everywhere but at the
   top, a binary one everywhere below 1; one that does not count leaves all of
   the tables but its caller's last answer and the step number. A plain signal answers 1 if it did
   not count, and every other signal 0; no semaphore's is refused with 7. No
   pool counts more objects than it may have. */
const char *unlike_signals(const struct moment *m);

/* How often accepted steps came at the top, and the most a pool counted. */
struct signals_seen {
    uint64_t by_threads; /* plain signals at the top */
    uint64_t by_interrupts;
    uint64_t below;       /* plain signals one below the top */
    uint64_t waits;       /* waits at the top */
    int32_t highest_pool;
};

void note_signals(struct signals_seen *seen, const struct moment *m);
void print_signals(const struct signals_seen *seen);

#endif
