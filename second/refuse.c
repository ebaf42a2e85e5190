/* "Refusal numbers, in the order of checking." */
#include "model.h"

/* 4: "tick from a thread; 2, 6, 9, 11, 12, 14 from an interrupt; 15, 16, 17,
   20 from an interrupt with timeout not 0". */
static bool wrong_context(const struct step *s)
{
    bool interrupt = s->caller == INTERRUPT;

    switch (s->kind) {
    case TICK:
        return !interrupt;
    case SEMAPHORE_WAIT:
    case QUEUE_WAIT:
    case SUSPEND:
    case SLEEP_FOR:
    case SLEEP_UNTIL:
    case EVENT_WAIT:
        return interrupt;
    case POST:
    case POST_AHEAD:
    case FETCH:
    case POOL_ALLOC:
        return interrupt && s->timeout != IMMEDIATE;
    default:
        return false;
    }
}

/* 5: "object not in the configuration (13: no such thread)". The kinds that
   use no object ignore it. */
static bool no_such_object(const struct sizes *z, const struct step *s)
{
    switch (s->kind) {
    case SEMAPHORE_WAIT:
    case SIGNAL:
    case SEMAPHORE_RESET:
    case BINARY_SIGNAL:
        return s->object >= z->semaphores;
    case QUEUE_WAIT:
    case RELEASE_FIRST:
    case RELEASE_ALL:
        return s->object >= z->queues;
    case SUSPEND:
    case RESUME:
        return s->object >= z->references;
    case EVENT_SIGNAL:
        return s->object >= z->threads;
    case POST:
    case POST_AHEAD:
    case FETCH:
    case MAILBOX_RESET:
    case MAILBOX_RESUME:
        return s->object >= z->mailboxes;
    case POOL_ALLOC:
    case POOL_FREE:
    case POOL_ADD:
        return s->object >= z->pools;
    default:
        return false;
    }
}

static bool cannot_be_slept(uint32_t ticks)
{
    return ticks == IMMEDIATE || ticks == INFINITE;
}

/* 6: "reset above 2147483647; pool object above 31; event wait for mask 0;
   sleep, for or until, of 0 or 4294967295 ticks". */
static bool wrong_value(const struct tables *t, const struct step *s)
{
    switch (s->kind) {
    case SEMAPHORE_RESET:
        return s->a > COUNTER_TOP;
    case POOL_FREE:
    case POOL_ADD:
        return s->a >= POOL_OBJECTS;
    case EVENT_WAIT:
        return s->a == 0;
    case SLEEP_FOR:
        return cannot_be_slept(s->timeout);
    case SLEEP_UNTIL:
        return cannot_be_slept(s->a - t->clock.time);
    default:
        return false;
    }
}

/* 7: "suspend on a held reference; free of an object not out; add of one not
   absent". Document 02, 6/13: "the first case of 7 is struck out", which was a
   signal at the top. */
static bool wrong_moment(const struct tables *t, const struct step *s)
{
    switch (s->kind) {
    case SUSPEND:
        return t->reference[s->object] != NOBODY;
    case POOL_FREE:
        return t->pool[s->object].mark[s->a] != OUT;
    case POOL_ADD:
        return t->pool[s->object].mark[s->a] != ABSENT;
    default:
        return false;
    }
}

uint32_t refusal_of(const struct tables *t, const struct step *s)
{
    if (!tables_hang_together(t)) {
        return BROKEN_TABLES;
    }
    if (s->kind < TICK || s->kind > POOL_ADD) {
        return BAD_KIND;
    }
    if (s->caller != INTERRUPT && s->caller != running_thread(t)) {
        return BAD_CALLER;
    }
    if (wrong_context(s)) {
        return BAD_CONTEXT;
    }
    if (no_such_object(&t->sizes, s)) {
        return BAD_OBJECT;
    }
    if (wrong_value(t, s)) {
        return BAD_VALUE;
    }
    if (wrong_moment(t, s)) {
        return BAD_MOMENT;
    }
    return ACCEPTED;
}
