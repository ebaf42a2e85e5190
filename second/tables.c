/* Sizes, fresh tables, and which thread of the tables runs. */
#include "model.h"

#include <string.h>

static bool slots_in_limits(const struct sizes *z)
{
    for (uint32_t m = 0; m < z->mailboxes; m++) {
        if (z->slots[m] < 1 || z->slots[m] > MAX_SLOTS) {
            return false;
        }
    }
    return true;
}

/* The slots are looked at last: only then is the number of them known good. */
bool sizes_in_limits(const struct sizes *z)
{
    return z->threads >= 1 && z->threads <= MAX_THREADS
        && z->semaphores <= MAX_SEMAPHORES
        && z->queues <= MAX_QUEUES
        && z->references <= MAX_REFERENCES
        && z->mailboxes <= MAX_MAILBOXES
        && z->pools <= MAX_POOLS
        && slots_in_limits(z);
}

/* "Fresh: all ready, references and mailboxes empty, pool objects absent,
   frequency as given, all else 0 or clear." Ready, nowhere, absent and no cause
   yet are 0; but the ready word says of all threads that they are ready. */
uint32_t fresh_tables(struct tables *t, const struct sizes *sizes,
                      const uint32_t *frequency)
{
    uint32_t given = frequency ? *frequency : DEFAULT_FREQUENCY;

    if (!sizes_in_limits(sizes)) {
        return BAD_SIZE;
    }
    if (given < 1 || given > MAX_FREQUENCY) {
        return BAD_VALUE;
    }
    memset(t, 0, sizeof *t);
    t->sizes = *sizes;
    t->clock.frequency = given;
    for (uint32_t r = 0; r < MAX_REFERENCES; r++) {
        t->reference[r] = NOBODY;
    }
    make_words(t);
    return ACCEPTED;
}

/* "The running thread is the first ready one, or idle." */
uint32_t running_thread(const struct tables *t)
{
    for (uint32_t i = 0; i < t->sizes.threads && i < MAX_THREADS; i++) {
        if (t->thread[i].state == READY) {
            return i;
        }
    }
    return IDLE;
}
