/*
 * Refusal 1: every sentence of "Tables that hang together" as a test, and
 * document 02's words for it on the ready and waiting words and on causes.
 *
 * The order matters for safety only: sizes first, then the threads' records,
 * then the objects, so that no test ever uses an index not yet found good.
 * Rows beyond the sizes are no part of the tables and are never looked at.
 */
#include "model.h"

static bool stands_at(const struct thread *th, uint32_t tag, uint32_t index)
{
    return th->place.tag == tag && th->place.index == index;
}

/* "Objects of calls are in range", "its timeout above 0", and "a call that
   sleeps keeps 0 for unused fields". */
static bool call_is_sound(const struct sizes *z, const struct call *c)
{
    bool timed = c->timeout > 0;
    bool plain = timed && c->operand == 0;

    switch (c->kind) {
    case 0:
        return c->object == 0 && c->operand == 0 && c->timeout == 0;
    case SEMAPHORE_WAIT:
        return plain && c->object < z->semaphores;
    case QUEUE_WAIT:
        return plain && c->object < z->queues;
    case SUSPEND:
        return plain && c->object < z->references;
    case SLEEP_FOR:
        return plain && c->object == 0;
    case SLEEP_UNTIL:
    case EVENT_WAIT:
        return timed && c->object == 0;
    case POST:
    case POST_AHEAD:
        return timed && c->object < z->mailboxes;
    case FETCH:
        return plain && c->object < z->mailboxes;
    case POOL_ALLOC:
        return plain && c->object < z->pools;
    default:
        return false;
    }
}

/* A queued thread stands at the queue of the very object it called. With the
   call's object in range the wait place is in range too. */
static bool queue_fits(const struct thread *th)
{
    uint32_t object = th->call.object;

    switch (th->call.kind) {
    case SEMAPHORE_WAIT:
        return stands_at(th, AT_SEMAPHORE, object);
    case QUEUE_WAIT:
        return stands_at(th, AT_QUEUE, object);
    case POST:
    case POST_AHEAD:
        return stands_at(th, AT_WRITERS, object);
    case FETCH:
        return stands_at(th, AT_READERS, object);
    case POOL_ALLOC:
        return stands_at(th, AT_POOL, object);
    default:
        return false;
    }
}

/* "A thread not ready has one [a call] that fits its wait", and "where it
   waits (nowhere if ready)"; sleepers and event waiters wait nowhere too. */
static bool wait_fits(const struct thread *th)
{
    uint32_t kind = th->call.kind;

    switch (th->state) {
    case READY:
        return th->place.tag == NOWHERE;
    case SLEEPING:
        return th->place.tag == NOWHERE
            && (kind == SLEEP_FOR || kind == SLEEP_UNTIL);
    case SUSPENDED:
        return kind == SUSPEND
            && stands_at(th, AT_REFERENCE, th->call.object);
    case QUEUED:
        return queue_fits(th);
    case AWAITING_EVENTS:
        return th->place.tag == NOWHERE && kind == EVENT_WAIT;
    default:
        return false;
    }
}

/* "Remaining ticks are 0 for a ready thread or an infinite timeout, else 1 to
   the call's timeout." */
static bool remaining_is_sound(const struct thread *th)
{
    if (th->state == READY || th->call.timeout == INFINITE) {
        return th->remaining == 0;
    }
    return th->remaining >= 1 && th->remaining <= th->call.timeout;
}

/* "Awaited flags (an unfinished 14's mask, else 0)"; "A thread awaiting
   events has none of its flags pending." */
static bool flags_are_sound(const struct thread *th)
{
    uint32_t mask = th->call.kind == EVENT_WAIT ? th->call.operand : 0;

    if (th->awaited != mask) {
        return false;
    }
    return th->state != AWAITING_EVENTS || (th->pending & th->awaited) == 0;
}

/* Document 02, 7/13: "Refusal 1 also covers a cause outside the list." The
   step numbers may have any value. */
static bool cause_is_sound(const struct thread *th)
{
    return th->cause < CAUSES;
}

static bool threads_hang(const struct tables *t)
{
    for (uint32_t i = 0; i < t->sizes.threads; i++) {
        const struct thread *th = &t->thread[i];

        if (!call_is_sound(&t->sizes, &th->call) || !wait_fits(th)
            || !remaining_is_sound(th) || !flags_are_sound(th)
            || !cause_is_sound(th)) {
            return false;
        }
    }
    return true;
}

/* "The running thread has no unfinished call." */
static bool running_is_free(const struct tables *t)
{
    uint32_t i = running_thread(t);

    return i == IDLE || t->thread[i].call.kind == 0;
}

static int64_t number_queued(const struct tables *t, uint32_t tag,
                             uint32_t index)
{
    int64_t n = 0;

    for (uint32_t i = 0; i < t->sizes.threads; i++) {
        const struct thread *th = &t->thread[i];

        n += th->state == QUEUED && stands_at(th, tag, index);
    }
    return n;
}

/* "With n > 0 threads queued has counter -n; with none, ... a queue exactly
   0." */
static bool queue_counter(const struct tables *t, uint32_t tag,
                          uint32_t index, int32_t counter)
{
    return counter == -number_queued(t, tag, index);
}

/* "With n > 0 threads queued has counter -n; with none, a semaphore is at
   least 0." */
static bool semaphore_counter(const struct tables *t, uint32_t tag,
                              uint32_t index, int32_t counter)
{
    int64_t n = number_queued(t, tag, index);

    return n > 0 ? counter == -n : counter >= 0;
}

static bool semaphores_hang(const struct tables *t)
{
    for (uint32_t s = 0; s < t->sizes.semaphores; s++) {
        if (!semaphore_counter(t, AT_SEMAPHORE, s, t->semaphore[s])) {
            return false;
        }
    }
    return true;
}

static bool queues_hang(const struct tables *t)
{
    for (uint32_t q = 0; q < t->sizes.queues; q++) {
        if (!queue_counter(t, AT_QUEUE, q, t->queue[q])) {
            return false;
        }
    }
    return true;
}

/* "Reference r holds i exactly if i is suspended on r": a holder outside the
   threads falls, and so does a second thread suspended there. */
static bool reference_hangs(const struct tables *t, uint32_t r)
{
    uint32_t holder = t->reference[r];

    if (holder != NOBODY && holder >= t->sizes.threads) {
        return false;
    }
    for (uint32_t i = 0; i < t->sizes.threads; i++) {
        const struct thread *th = &t->thread[i];
        bool suspended_here =
            th->state == SUSPENDED && stands_at(th, AT_REFERENCE, r);

        if (suspended_here != (holder == i)) {
            return false;
        }
    }
    return true;
}

static bool references_hang(const struct tables *t)
{
    for (uint32_t r = 0; r < t->sizes.references; r++) {
        if (!reference_hangs(t, r)) {
            return false;
        }
    }
    return true;
}

/* Places and count in range; "A mailbox's write place is its read place plus
   its count, modulo slots"; and it "has a writers' and a readers' queue". */
static bool mailbox_hangs(const struct tables *t, uint32_t m)
{
    const struct mailbox *box = &t->mailbox[m];
    uint32_t slots = t->sizes.slots[m];

    return box->read < slots && box->write < slots && box->count <= slots
        && box->write == (box->read + box->count) % slots
        && queue_counter(t, AT_WRITERS, m, box->writers)
        && queue_counter(t, AT_READERS, m, box->readers);
}

static bool mailboxes_hang(const struct tables *t)
{
    for (uint32_t m = 0; m < t->sizes.mailboxes; m++) {
        if (!mailbox_hangs(t, m)) {
            return false;
        }
    }
    return true;
}

/* "A free list has each free object once and no other"; "Each object is
   marked absent, free or out." */
static bool free_list_matches_marks(const struct pool *p)
{
    uint32_t seen[POOL_OBJECTS] = { 0 };

    if (p->length > POOL_OBJECTS) {
        return false;
    }
    for (uint32_t k = 0; k < p->length; k++) {
        if (p->list[k] >= POOL_OBJECTS) {
            return false;
        }
        seen[p->list[k]]++;
    }
    for (uint32_t n = 0; n < POOL_OBJECTS; n++) {
        if (p->mark[n] > OUT || seen[n] != (p->mark[n] == FREE)) {
            return false;
        }
    }
    return true;
}

/* "The ready threads whose unfinished alloc was woken with 0": each of them
   is promised an object of the list. */
static int64_t number_promised(const struct tables *t, uint32_t pool)
{
    int64_t n = 0;

    for (uint32_t i = 0; i < t->sizes.threads; i++) {
        const struct thread *th = &t->thread[i];

        n += th->state == READY && th->call.kind == POOL_ALLOC
            && th->call.object == pool && th->wake_message == MSG_OK;
    }
    return n;
}

static bool pool_hangs(const struct tables *t, uint32_t p)
{
    const struct pool *pool = &t->pool[p];
    int64_t counted = pool->counter > 0 ? pool->counter : 0;

    return free_list_matches_marks(pool)
        && semaphore_counter(t, AT_POOL, p, pool->counter)
        && pool->length == counted + number_promised(t, p);
}

static bool pools_hang(const struct tables *t)
{
    for (uint32_t p = 0; p < t->sizes.pools; p++) {
        if (!pool_hangs(t, p)) {
            return false;
        }
    }
    return true;
}

/* Document 02, 1/13: "bit i set exactly when thread i is ready". No bit stands
   for a thread that there is not. */
static bool ready_word_agrees(const struct tables *t)
{
    for (uint32_t i = 0; i < t->sizes.threads; i++) {
        bool is_ready = t->thread[i].state == READY;

        if ((t->words.ready >> i & 1) != is_ready) {
            return false;
        }
    }
    return t->words.ready >> t->sizes.threads == 0;
}

/* The same "with the threads waiting there". */
static bool word_agrees(const struct tables *t, uint32_t tag, uint32_t index,
                        uint32_t word)
{
    for (uint32_t i = 0; i < t->sizes.threads; i++) {
        const struct thread *th = &t->thread[i];
        bool waits_here = th->state == QUEUED && stands_at(th, tag, index);

        if ((word >> i & 1) != waits_here) {
            return false;
        }
    }
    return word >> t->sizes.threads == 0;
}

static bool words_agree(const struct tables *t, uint32_t tag, uint32_t number,
                        const uint32_t *word)
{
    for (uint32_t k = 0; k < number; k++) {
        if (!word_agrees(t, tag, k, word[k])) {
            return false;
        }
    }
    return true;
}

/* "Words that disagree don't hang together." */
static bool words_hang(const struct tables *t)
{
    const struct sizes *z = &t->sizes;
    const struct words *w = &t->words;

    return ready_word_agrees(t)
        && words_agree(t, AT_SEMAPHORE, z->semaphores, w->semaphore)
        && words_agree(t, AT_QUEUE, z->queues, w->queue)
        && words_agree(t, AT_WRITERS, z->mailboxes, w->writers)
        && words_agree(t, AT_READERS, z->mailboxes, w->readers)
        && words_agree(t, AT_POOL, z->pools, w->pool);
}

bool tables_hang_together(const struct tables *t)
{
    return sizes_in_limits(&t->sizes)
        && t->clock.frequency >= 1 && t->clock.frequency <= MAX_FREQUENCY
        && threads_hang(t)
        && running_is_free(t)
        && semaphores_hang(t)
        && queues_hang(t)
        && references_hang(t)
        && mailboxes_hang(t)
        && pools_hang(t)
        && words_hang(t);
}
