/*
 * Words for the operators' screen: who is ready, and who waits at each place,
 * made by a walk over the threads' records. The words in the tables are made
 * anew at the end of each accepted step, and never kept up within it.
 */
#include "model.h"

static void add_place(struct places *all, uint32_t tag, uint32_t index)
{
    all->at[all->number++] = (struct place){ tag, index };
}

/* "One such word for each semaphore (a pool's too), queue and mailbox side." */
struct places places_in_use(const struct sizes *z)
{
    struct places all = { 0 };

    for (uint32_t s = 0; s < z->semaphores; s++) {
        add_place(&all, AT_SEMAPHORE, s);
    }
    for (uint32_t q = 0; q < z->queues; q++) {
        add_place(&all, AT_QUEUE, q);
    }
    for (uint32_t m = 0; m < z->mailboxes; m++) {
        add_place(&all, AT_WRITERS, m);
        add_place(&all, AT_READERS, m);
    }
    for (uint32_t p = 0; p < z->pools; p++) {
        add_place(&all, AT_POOL, p);
    }
    return all;
}

uint32_t *word_at(struct words *w, struct place at)
{
    switch (at.tag) {
    case AT_SEMAPHORE:
        return &w->semaphore[at.index];
    case AT_QUEUE:
        return &w->queue[at.index];
    case AT_WRITERS:
        return &w->writers[at.index];
    case AT_READERS:
        return &w->readers[at.index];
    default: /* a pool */
        return &w->pool[at.index];
    }
}

/* "Bit i set exactly when thread i is ready." */
uint32_t walk_ready(const struct tables *t)
{
    uint32_t word = 0;

    for (uint32_t i = 0; i < t->sizes.threads; i++) {
        if (t->thread[i].state == READY) {
            word += UINT32_C(1) << i;
        }
    }
    return word;
}

/* "With the threads waiting there." */
uint32_t walk_waiting(const struct tables *t, struct place at)
{
    uint32_t word = 0;

    for (uint32_t i = 0; i < t->sizes.threads; i++) {
        const struct thread *th = &t->thread[i];

        if (th->state == QUEUED && th->place.tag == at.tag
            && th->place.index == at.index) {
            word += UINT32_C(1) << i;
        }
    }
    return word;
}

/* Words of places not in use are no part of the tables. */
void make_words(struct tables *t)
{
    struct places all = places_in_use(&t->sizes);

    t->words.ready = walk_ready(t);
    for (uint32_t k = 0; k < all.number; k++) {
        *word_at(&t->words, all.at[k]) = walk_waiting(t, all.at[k]);
    }
}
