/*
 * Waiting: threads are made ready, finish their calls, stand at counters, and
 * go to sleep.
 */
#include "work.h"

#include <stddef.h>

static uint32_t bit_of(uint32_t i)
{
    return UINT32_C(1) << i;
}

/* The operand "is read as signed 32-bit where it is a message". */
int32_t as_message(uint32_t a)
{
    return a <= INT32_MAX ? (int32_t)a
                          : (int32_t)(a - UINT32_C(2147483648)) + INT32_MIN;
}

/* Document 02, 7/13: "a pool's free and add count as signal". The kinds that
   are not named here wake nobody. */
static uint32_t cause_of(uint32_t kind)
{
    static const uint8_t cause[POOL_ADD + 1] = {
        [TICK] = BY_TICK,
        [SIGNAL] = BY_SIGNAL,
        [SEMAPHORE_RESET] = BY_RESET,
        [BINARY_SIGNAL] = BY_SIGNAL,
        [RELEASE_FIRST] = BY_RELEASE,
        [RELEASE_ALL] = BY_RELEASE,
        [RESUME] = BY_RESUME,
        [EVENT_SIGNAL] = BY_EVENT,
        [POST] = BY_POST,
        [POST_AHEAD] = BY_POST,
        [FETCH] = BY_FETCH,
        [MAILBOX_RESET] = BY_RESET,
        [POOL_FREE] = BY_SIGNAL,
        [POOL_ADD] = BY_SIGNAL
    };

    return cause[kind];
}

const char *cause_name(uint32_t cause)
{
    static const char *const name[CAUSES] = {
        "none", "signal", "release", "resume", "event", "post", "fetch",
        "reset", "tick"
    };

    return name[cause];
}

/* "'Made ready' stores the message and sets remaining ticks to 0." Document 02,
   7/13: it leaves the cause, "and the number of that step", which the step has
   counted up already. */
void make_ready(struct work *w, uint32_t i, int32_t message)
{
    struct thread *th = &w->t->thread[i];

    th->state = READY;
    th->place = (struct place){ NOWHERE, 0 };
    th->remaining = 0;
    th->wake_message = message;
    th->cause = cause_of(w->at_work);
    th->step = w->t->steps;
    w->woken |= bit_of(i);
}

/* A finished call leaves its answer in the record; the call's fields and the
   awaited flags (an unfinished 14's mask) go. */
void finish(struct work *w, uint32_t i, struct answer answer)
{
    struct thread *th = &w->t->thread[i];

    th->call = (struct call){ 0, 0, 0, 0 };
    th->awaited = 0;
    th->last = answer;
    w->finished |= bit_of(i);
}

void tell(struct work *w, struct finished_call c)
{
    if (w->told != NULL && w->told->number <= MAX_THREADS) {
        w->told->call[w->told->number++] = c;
    }
}

/* A signal stops at the top, and the tables' rules do the rest: the sum is
   within 32 bits. */
void add_to(int32_t *counter, int by)
{
    *counter = (int32_t)((int64_t)*counter + by);
}

static bool waits_at(const struct thread *th, struct place at)
{
    return th->state == QUEUED && th->place.tag == at.tag
        && th->place.index == at.index;
}

/* "NIL wakes the highest in priority", which is the lowest index. */
void release_first(struct work *w, struct place at, int32_t message)
{
    for (uint32_t i = 0; i < w->t->sizes.threads; i++) {
        if (waits_at(&w->t->thread[i], at)) {
            add_to(counter_at(w->t, at), +1);
            make_ready(w, i, message);
            return;
        }
    }
}

void release_all(struct work *w, struct place at, int32_t message)
{
    for (uint32_t i = 0; i < w->t->sizes.threads; i++) {
        if (waits_at(&w->t->thread[i], at)) {
            add_to(counter_at(w->t, at), +1);
            make_ready(w, i, message);
        }
    }
}

/* "Counter +1; if it was below 0, the highest-priority waiter is made ready
   with 0." Document 02, 6/13: at the top it "leaves the counter, wakes nobody",
   and "the basic signal tells its callers ... whether it counted". */
bool signal_at(struct work *w, struct place at)
{
    int32_t *counter = counter_at(w->t, at);

    if (*counter == COUNTER_TOP) {
        return false;
    }
    if (*counter < 0) {
        release_first(w, at, MSG_OK);
    } else {
        add_to(counter, +1);
    }
    return true;
}

/* "At 0 the thread is taken off its queue (counter +1) or reference (emptied)
   and made ready with -1." */
void time_out(struct work *w, uint32_t i)
{
    struct thread *th = &w->t->thread[i];

    if (th->state == QUEUED) {
        add_to(counter_at(w->t, th->place), +1);
    }
    if (th->state == SUSPENDED) {
        w->t->reference[th->place.index] = NOBODY;
    }
    make_ready(w, i, MSG_TIMEOUT);
}

static uint32_t state_of_wait(uint32_t kind)
{
    switch (kind) {
    case SUSPEND:
        return SUSPENDED;
    case SLEEP_FOR:
    case SLEEP_UNTIL:
        return SLEEPING;
    case EVENT_WAIT:
        return AWAITING_EVENTS;
    default:
        return QUEUED;
    }
}

struct place place_of_wait(const struct call *c)
{
    switch (c->kind) {
    case SEMAPHORE_WAIT:
        return (struct place){ AT_SEMAPHORE, c->object };
    case QUEUE_WAIT:
        return (struct place){ AT_QUEUE, c->object };
    case SUSPEND:
        return (struct place){ AT_REFERENCE, c->object };
    case POST:
    case POST_AHEAD:
        return (struct place){ AT_WRITERS, c->object };
    case FETCH:
        return (struct place){ AT_READERS, c->object };
    case POOL_ALLOC:
        return (struct place){ AT_POOL, c->object };
    default:
        return (struct place){ NOWHERE, 0 };
    }
}

/* Serves the first sleep of a call and a mailbox call's sleeping again alike:
   it may sleep "again with its FULL timeout". "One that sleeps sets its last
   answer to 0 and 0." */
void put_to_sleep(struct work *w, uint32_t i, struct call c)
{
    struct thread *th = &w->t->thread[i];

    th->state = state_of_wait(c.kind);
    th->place = place_of_wait(&c);
    th->remaining = c.timeout == INFINITE ? 0 : c.timeout;
    th->awaited = c.kind == EVENT_WAIT ? c.operand : 0;
    th->call = c;
    th->last = (struct answer){ MSG_OK, 0 };
    if (th->state == QUEUED) {
        add_to(counter_at(w->t, th->place), -1);
    }
    if (th->state == SUSPENDED) {
        w->t->reference[c.object] = i;
    }
}
