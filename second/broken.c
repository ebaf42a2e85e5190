/*
 * "Tables that hang together", sentence by sentence in the paper's order, and
 * the words of document 02, 1/13, and the causes of 7/13: each rule is asked of
 * row after row, until one breaks it.
 */
#include "broken.h"

#include <stddef.h>

static bool queued_at(const struct thread *th, uint32_t tag, uint32_t index)
{
    return th->state == QUEUED && th->place.tag == tag
        && th->place.index == index;
}

/* What a place's number leads to. */
struct spot {
    uint32_t tag;
    uint32_t index;
    uint32_t objects; /* that there are; from there on nothing is asked */
    int32_t counter;
    uint32_t word;
};

static struct spot spot_of(const struct tables *t, uint32_t place)
{
    const struct sizes *z = &t->sizes;
    const struct words *w = &t->words;
    uint32_t p = place - 16, q = place - 20, m = place - 28;

    if (place < 16) {
        return (struct spot){ AT_SEMAPHORE, place, z->semaphores,
                              t->semaphore[place], w->semaphore[place] };
    }
    if (p < 4) {
        return (struct spot){ AT_POOL, p, z->pools, t->pool[p].counter,
                              w->pool[p] };
    }
    if (q < 8) {
        return (struct spot){ AT_QUEUE, q, z->queues, t->queue[q],
                              w->queue[q] };
    }
    if (m < 4) {
        return (struct spot){ AT_WRITERS, m, z->mailboxes,
                              t->mailbox[m].writers, w->writers[m] };
    }
    m -= 4;
    return (struct spot){ AT_READERS, m, z->mailboxes, t->mailbox[m].readers,
                          w->readers[m] };
}

/* "A semaphore (a pool's too) or queue with n > 0 threads queued has counter
   -n; with none, a semaphore is at least 0 and a queue exactly 0." */
static bool counter_is_right(const struct tables *t, uint32_t place)
{
    struct spot at = spot_of(t, place);
    int64_t owed = 0;

    for (uint32_t i = 0; i < t->sizes.threads; i++) {
        owed += queued_at(&t->thread[i], at.tag, at.index);
    }
    if (owed == 0 && (at.tag == AT_SEMAPHORE || at.tag == AT_POOL)) {
        return at.index >= at.objects || at.counter >= 0;
    }
    return at.index >= at.objects || at.counter + owed == 0;
}

/* "Reference r holds i exactly if i is suspended on r." */
static bool reference_is_right(const struct tables *t, uint32_t r)
{
    bool in_range = t->reference[r] == NOBODY
                 || t->reference[r] < t->sizes.threads;

    for (uint32_t i = 0; i < t->sizes.threads && in_range; i++) {
        const struct thread *th = &t->thread[i];
        bool suspended = th->state == SUSPENDED
                      && th->place.tag == AT_REFERENCE && th->place.index == r;

        in_range = suspended == (t->reference[r] == i);
    }
    return in_range;
}

/* Places and counts in range; "A mailbox's write place is its read place plus
   its count, modulo slots." */
static bool mailbox_is_right(const struct tables *t, uint32_t m)
{
    const struct mailbox *b = &t->mailbox[m];
    uint32_t slots = t->sizes.slots[m];

    return b->count <= slots && b->read < slots && b->write < slots
        && (b->read + b->count) % slots == b->write;
}

/* "A free list has each free object once and no other"; "Each object is marked
   absent, free or out." */
static bool list_is_right(const struct pool *p)
{
    for (uint32_t o = 0; o < POOL_OBJECTS; o++) {
        uint32_t listed = 0;

        for (uint32_t k = 0; k < p->length; k++) {
            listed += p->list[k] == o;
        }
        if (p->mark[o] > OUT || listed != (p->mark[o] == FREE)) {
            return false;
        }
    }
    for (uint32_t k = 0; k < p->length; k++) {
        if (p->list[k] >= POOL_OBJECTS) {
            return false;
        }
    }
    return true;
}

/* "Its length is the larger of counter and 0, plus the ready threads whose
   unfinished alloc was woken with 0." */
static bool pool_is_right(const struct tables *t, uint32_t p)
{
    const struct pool *pool = &t->pool[p];
    int64_t length = pool->counter > 0 ? pool->counter : 0;

    for (uint32_t i = 0; i < t->sizes.threads; i++) {
        const struct thread *th = &t->thread[i];

        length += th->state == READY && th->call.kind == POOL_ALLOC
               && th->call.object == p && th->wake_message == MSG_OK;
    }
    return pool->length <= POOL_OBJECTS && pool->length == length
        && list_is_right(pool);
}

/* "Remaining ticks are 0 for a ready thread or an infinite timeout, else 1 to
   the call's timeout." */
static bool ticks_are_right(const struct tables *t, uint32_t i)
{
    const struct thread *th = &t->thread[i];

    if (th->state == READY || th->call.timeout == INFINITE) {
        return th->remaining == 0;
    }
    return th->remaining > 0 && th->remaining <= th->call.timeout;
}

/* How many objects an unfinished call may be on; 0 for a kind that never
   sleeps. Those on no object keep the object 0. */
static uint32_t objects_for(const struct sizes *z, uint32_t kind)
{
    switch (kind) {
    case SEMAPHORE_WAIT:
        return z->semaphores;
    case QUEUE_WAIT:
        return z->queues;
    case SUSPEND:
        return z->references;
    case SLEEP_FOR:
    case SLEEP_UNTIL:
    case EVENT_WAIT:
        return 1;
    case POST:
    case POST_AHEAD:
    case FETCH:
        return z->mailboxes;
    case POOL_ALLOC:
        return z->pools;
    default:
        return 0;
    }
}

/* "The objects of calls are in range"; "An unfinished call is of kind 2, 6, 9,
   11, 12, 14 to 17 or 20, its timeout above 0"; "all 0 without one". */
static bool call_is_right(const struct tables *t, uint32_t i)
{
    const struct call *c = &t->thread[i].call;
    bool keeps_operand = c->kind == SLEEP_UNTIL || c->kind == EVENT_WAIT
                      || c->kind == POST || c->kind == POST_AHEAD;

    if (c->kind == 0) {
        return c->object == 0 && c->operand == 0 && c->timeout == 0;
    }
    return c->object < objects_for(&t->sizes, c->kind) && c->timeout > 0
        && (keeps_operand || c->operand == 0);
}

/* The state and the place of a thread that sleeps in a call of this kind. */
static void wait_of(uint32_t kind, uint32_t *state, uint32_t *tag)
{
    static const struct {
        uint32_t kind, state, tag;
    } waits[] = {
        { SEMAPHORE_WAIT, QUEUED, AT_SEMAPHORE },
        { QUEUE_WAIT, QUEUED, AT_QUEUE },
        { SUSPEND, SUSPENDED, AT_REFERENCE },
        { SLEEP_FOR, SLEEPING, NOWHERE },
        { SLEEP_UNTIL, SLEEPING, NOWHERE },
        { EVENT_WAIT, AWAITING_EVENTS, NOWHERE },
        { POST, QUEUED, AT_WRITERS },
        { POST_AHEAD, QUEUED, AT_WRITERS },
        { FETCH, QUEUED, AT_READERS },
        { POOL_ALLOC, QUEUED, AT_POOL }
    };

    *state = READY;
    *tag = NOWHERE;
    for (size_t k = 0; k < sizeof waits / sizeof waits[0]; k++) {
        if (waits[k].kind == kind) {
            *state = waits[k].state;
            *tag = waits[k].tag;
        }
    }
}

/* "A thread not ready has one that fits its wait"; "where it waits (nowhere if
   ready)". */
static bool wait_is_right(const struct tables *t, uint32_t i)
{
    const struct thread *th = &t->thread[i];
    uint32_t state, tag;

    if (th->state == READY) {
        return th->place.tag == NOWHERE;
    }
    wait_of(th->call.kind, &state, &tag);
    return th->state == state && th->place.tag == tag
        && (tag == NOWHERE || th->place.index == th->call.object);
}

/* "Awaited flags (an unfinished 14's mask, else 0)." */
static bool awaited_is_right(const struct tables *t, uint32_t i)
{
    const struct thread *th = &t->thread[i];

    return th->awaited
        == (th->call.kind == EVENT_WAIT ? th->call.operand : 0);
}

/* "A thread awaiting events has none of its flags pending." */
static bool pending_is_right(const struct tables *t, uint32_t i)
{
    const struct thread *th = &t->thread[i];

    return th->state != AWAITING_EVENTS || (th->pending & th->awaited) == 0;
}

/* "The running thread has no unfinished call." */
static bool running_is_right(const struct tables *t, uint32_t i)
{
    return i != running_thread(t) || t->thread[i].call.kind == 0;
}

/* Each thread in its turn is struck out of the word: nothing may be left, and
   a bit that was not there is left too. */
static bool ready_is_right(const struct tables *t, uint32_t row)
{
    uint32_t left = t->words.ready;

    (void)row;
    for (uint32_t i = 0; i < t->sizes.threads; i++) {
        left ^= (t->thread[i].state == READY ? UINT32_C(1) : 0) << i;
    }
    return left == 0;
}

static bool waiting_is_right(const struct tables *t, uint32_t place)
{
    struct spot at = spot_of(t, place);
    uint32_t left = at.word;

    for (uint32_t i = 0; i < t->sizes.threads; i++) {
        bool here = queued_at(&t->thread[i], at.tag, at.index);

        left ^= (here ? UINT32_C(1) : 0) << i;
    }
    return at.index >= at.objects || left == 0;
}

/* "None yet, signal, release, resume, event, post, fetch, reset or tick": nine
   of them, from 0 on. */
static bool cause_is_right(const struct tables *t, uint32_t i)
{
    return t->thread[i].cause <= 8;
}

static bool sizes_are_right(const struct tables *t, uint32_t row)
{
    (void)row;
    return sizes_in_limits(&t->sizes);
}

static bool frequency_is_right(const struct tables *t, uint32_t row)
{
    (void)row;
    return t->clock.frequency >= 1 && t->clock.frequency <= MAX_FREQUENCY;
}

/* The rules after the first are asked only of sizes that are right. */
struct broken broken_rule(const struct tables *t)
{
    const struct sizes *z = &t->sizes;
    const struct {
        bool (*is_right)(const struct tables *t, uint32_t row);
        uint32_t rows;
    } rules[RULES] = {
        [SIZES_RULE] = { sizes_are_right, 1 },
        [FREQUENCY_RULE] = { frequency_is_right, 1 },
        [COUNTER_RULE] = { counter_is_right, 36 },
        [REFERENCE_RULE] = { reference_is_right, z->references },
        [MAILBOX_RULE] = { mailbox_is_right, z->mailboxes },
        [POOL_RULE] = { pool_is_right, z->pools },
        [TICKS_RULE] = { ticks_are_right, z->threads },
        [CALL_RULE] = { call_is_right, z->threads },
        [WAIT_RULE] = { wait_is_right, z->threads },
        [AWAITED_RULE] = { awaited_is_right, z->threads },
        [PENDING_RULE] = { pending_is_right, z->threads },
        [RUNNING_RULE] = { running_is_right, z->threads },
        [READY_RULE] = { ready_is_right, 1 },
        [WAITING_RULE] = { waiting_is_right, 36 },
        [CAUSE_RULE] = { cause_is_right, z->threads }
    };

    for (uint32_t rule = SIZES_RULE; rule < RULES; rule++) {
        for (uint32_t row = 0; row < rules[rule].rows; row++) {
            if (!rules[rule].is_right(t, row)) {
                return (struct broken){ rule, row };
            }
        }
    }
    return (struct broken){ NO_RULE, 0 };
}
