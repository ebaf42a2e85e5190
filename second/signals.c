/* Only the step, its result and the tables around it are looked at. */
#include "signals.h"

#include <stdio.h>
#include <string.h>

/* The counter that a step signals, or NULL. */
static const int32_t *signalled(const struct tables *t, const struct step *s)
{
    switch (s->kind) {
    case SIGNAL:
    case BINARY_SIGNAL:
        return &t->semaphore[s->object];
    case POOL_FREE:
    case POOL_ADD:
        return &t->pool[s->object].counter;
    default:
        return NULL;
    }
}

static bool is_to_count(const struct step *s, int32_t counter)
{
    return s->kind == BINARY_SIGNAL ? counter < 1 : counter < COUNTER_TOP;
}

/* An interrupt has no last answer, and no finished bit. The step number is
   another matter: causes.c looks at it. */
static bool leaves_all_else(const struct moment *m)
{
    struct tables want = *m->before;
    uint32_t finished = 0;

    want.steps = m->after->steps;
    if (m->step->caller != INTERRUPT) {
        want.thread[m->step->caller].last = m->result->answer;
        finished = UINT32_C(1) << m->step->caller;
    }
    return memcmp(&want, m->after, sizeof want) == 0
        && m->result->woken == 0 && m->result->finished == finished;
}

static const char *unlike_refused(const struct moment *m)
{
    bool plain_or_binary = m->step->kind == SIGNAL
        || m->step->kind == BINARY_SIGNAL;

    return plain_or_binary && m->result->code == BAD_MOMENT
        ? "a signal was refused with 7" : NULL;
}

static const char *unlike_signal(const struct moment *m, int32_t before,
                                 int32_t after)
{
    bool counts = is_to_count(m->step, before);
    int32_t message = m->step->kind == SIGNAL && !counts ? MSG_NOT_COUNTED
                                                         : MSG_OK;

    if ((int64_t)after != (int64_t)before + counts) {
        return "a signal did not count as it should";
    }
    if (m->result->answer.message != message || m->result->answer.datum != 0) {
        return "a signal did not answer whether it counted";
    }
    if (!counts && !leaves_all_else(m)) {
        return "a signal that did not count changed something";
    }
    return NULL;
}

const char *unlike_signals(const struct moment *m)
{
    const int32_t *before;

    if (m->result->code != ACCEPTED) {
        return unlike_refused(m);
    }
    before = signalled(m->before, m->step);
    for (uint32_t p = 0; p < m->after->sizes.pools; p++) {
        if (m->after->pool[p].counter > POOL_OBJECTS) {
            return "a pool counts more objects than it may have";
        }
    }
    return before == NULL
        ? NULL : unlike_signal(m, *before, *signalled(m->after, m->step));
}

static void note_signal(struct signals_seen *seen, const struct step *s,
                        int32_t before)
{
    if (before == COUNTER_TOP) {
        seen->by_threads += s->caller != INTERRUPT;
        seen->by_interrupts += s->caller == INTERRUPT;
    }
    seen->below += before == COUNTER_TOP - 1;
}

void note_signals(struct signals_seen *seen, const struct moment *m)
{
    const struct step *s = m->step;

    if (m->result->code != ACCEPTED) {
        return;
    }
    if (s->kind == SIGNAL) {
        note_signal(seen, s, m->before->semaphore[s->object]);
    }
    if (s->kind == SEMAPHORE_WAIT) {
        seen->waits += m->before->semaphore[s->object] == COUNTER_TOP;
    }
    for (uint32_t p = 0; p < m->after->sizes.pools; p++) {
        if (m->after->pool[p].counter > seen->highest_pool) {
            seen->highest_pool = m->after->pool[p].counter;
        }
    }
}

void print_signals(const struct signals_seen *seen)
{
    printf("signals at the top by threads %llu, by interrupts %llu, one below "
           "it %llu; waits at the top %llu; highest counter of a pool %d\n",
           (unsigned long long)seen->by_threads,
           (unsigned long long)seen->by_interrupts,
           (unsigned long long)seen->below, (unsigned long long)seen->waits,
           (int)seen->highest_pool);
}
