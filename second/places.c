/*
 * Where threads wait, as a host counts it. A host keeps a thread's place as one
 * number, which the thread's state says how to read: of a queued thread the
 * place of a counter, of a suspended one its reference, else 0. Lists of
 * changes and saved tables have that number.
 */
#include "model.h"

/* Where no number of a host's leads: no tag of these tables, so that the test
   for refusal 1 refuses it. The index keeps the number. */
enum { NO_SUCH_TAG = 99 };

/* The ranges of the places with a counter. */
static const struct range {
    uint32_t tag;
    uint32_t first;
    uint32_t end;
} RANGES[] = {
    { AT_SEMAPHORE, SEMAPHORE_PLACE, POOL_PLACE },
    { AT_POOL, POOL_PLACE, QUEUE_PLACE },
    { AT_QUEUE, QUEUE_PLACE, WRITERS_PLACE },
    { AT_WRITERS, WRITERS_PLACE, READERS_PLACE },
    { AT_READERS, READERS_PLACE, MAX_PLACES }
};

enum { RANGES_NUMBER = sizeof RANGES / sizeof RANGES[0] };

struct place counter_place(uint32_t number)
{
    for (uint32_t k = 0; k < RANGES_NUMBER; k++) {
        if (number >= RANGES[k].first && number < RANGES[k].end) {
            return (struct place){ RANGES[k].tag, number - RANGES[k].first };
        }
    }
    return (struct place){ NO_SUCH_TAG, number };
}

struct place numbered_place(uint32_t state, uint32_t number)
{
    if (state == QUEUED) {
        return counter_place(number);
    }
    if (state == SUSPENDED) {
        return (struct place){ AT_REFERENCE, number };
    }
    return (struct place){ number == 0 ? NOWHERE : NO_SUCH_TAG, number };
}

uint32_t place_number(struct place at)
{
    for (uint32_t k = 0; k < RANGES_NUMBER; k++) {
        if (at.tag == RANGES[k].tag) {
            return RANGES[k].first + at.index;
        }
    }
    return at.tag == NOWHERE ? 0 : at.index;
}

void number_places(struct tables *t)
{
    for (uint32_t i = 0; i < MAX_THREADS; i++) {
        struct place *at = &t->thread[i].place;

        *at = (struct place){ NOWHERE, place_number(*at) };
    }
}

void read_places(struct tables *t)
{
    for (uint32_t i = 0; i < MAX_THREADS; i++) {
        struct thread *th = &t->thread[i];

        th->place = numbered_place(th->state, th->place.index);
    }
}

int32_t *counter_at(struct tables *t, struct place at)
{
    switch (at.tag) {
    case AT_SEMAPHORE:
        return &t->semaphore[at.index];
    case AT_QUEUE:
        return &t->queue[at.index];
    case AT_WRITERS:
        return &t->mailbox[at.index].writers;
    case AT_READERS:
        return &t->mailbox[at.index].readers;
    default: /* a pool */
        return &t->pool[at.index].counter;
    }
}
