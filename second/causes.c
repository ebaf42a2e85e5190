/*
 * Only the step, its result and the tables around it are looked at. In one step
 * a thread waits in one call alone, so the kind of that call and the kind of
 * the step say what woke it: at a mailbox other calls than the step's may have,
 * while settling, everywhere else only the step's own.
 */
#include "causes.h"

#include <stdio.h>

/* What a step of this kind puts its own wakings down to. */
static uint32_t own_cause(uint32_t kind)
{
    switch (kind) {
    case 3:
    case 5:
    case 21:
    case 22:
        return BY_SIGNAL;
    case 7:
    case 8:
        return BY_RELEASE;
    case 10:
        return BY_RESUME;
    case 13:
        return BY_EVENT;
    case 15:
    case 16:
        return BY_POST;
    case 17:
        return BY_FETCH;
    case 4:
    case 18:
        return BY_RESET;
    case 1:
        return BY_TICK;
    default:
        return NO_CAUSE;
    }
}

/* The kind of the call in which a woken thread waited. */
static uint32_t waited_in(const struct moment *m, uint32_t i)
{
    return m->step->caller == i ? m->step->kind
                                : m->before->thread[i].call.kind;
}

/* What a thread that waited in a call of this kind was woken by, in a step that
   is no tick and no reset: writers by whoever fetched, readers by whoever
   posted. */
static uint32_t cause_of_wait(uint32_t waited)
{
    switch (waited) {
    case SEMAPHORE_WAIT:
    case POOL_ALLOC:
        return BY_SIGNAL;
    case QUEUE_WAIT:
        return BY_RELEASE;
    case SUSPEND:
        return BY_RESUME;
    case EVENT_WAIT:
        return BY_EVENT;
    case POST:
    case POST_AHEAD:
        return BY_FETCH;
    case FETCH:
        return BY_POST;
    default: /* a sleep ends with its ticks alone */
        return BY_TICK;
    }
}

/* Settling wakes nobody in a tick or a reset: whoever these woke answers its
   message, and goes on. */
static uint32_t cause_wanted(const struct moment *m, uint32_t i)
{
    uint32_t own = own_cause(m->step->kind);

    return own == BY_TICK || own == BY_RESET ? own
                                             : cause_of_wait(waited_in(m, i));
}

/* -1 with a tick and -2 with a reset, and with these alone but where the waker
   names the message. */
static bool message_goes_with(const struct moment *m, const struct thread *th)
{
    switch (th->cause) {
    case BY_TICK:
        return th->wake_message == -1;
    case BY_RESET:
        return th->wake_message == -2;
    case BY_RELEASE:
    case BY_RESUME:
        return (uint32_t)th->wake_message == m->step->a;
    default:
        return th->wake_message == 0;
    }
}

static const char *unlike_woken(const struct moment *m, uint32_t i)
{
    const struct thread *th = &m->after->thread[i];
    bool by_mailbox = th->cause == BY_POST || th->cause == BY_FETCH;

    if (th->cause != cause_wanted(m, i)) {
        return "a woken thread has another cause";
    }
    if (!by_mailbox && th->cause != own_cause(m->step->kind)) {
        return "a woken thread has a cause that this step cannot be";
    }
    if (!message_goes_with(m, th)) {
        return "a message does not go with its cause";
    }
    return th->step == m->after->steps
        ? NULL : "a woken thread has another step's number";
}

static const char *unlike_thread(const struct moment *m, uint32_t i)
{
    const struct thread *before = &m->before->thread[i];
    const struct thread *after = &m->after->thread[i];

    if (m->result->woken >> i & 1) {
        return unlike_woken(m, i);
    }
    return after->cause == before->cause && after->step == before->step
        ? NULL : "a thread that was not woken has another cause or step";
}

/* The sum is made with room to spare. */
static bool counts_up(const struct moment *m)
{
    uint64_t next = (uint64_t)m->before->steps
                  + (m->result->code == ACCEPTED);

    return m->after->steps == (next <= LAST_STEP ? next : LAST_STEP);
}

const char *unlike_causes(const struct moment *m)
{
    if (!counts_up(m)) {
        return "the step number did not count as it should";
    }
    for (uint32_t i = 0; i < MAX_THREADS; i++) {
        const char *wrong = unlike_thread(m, i);

        if (wrong != NULL) {
            return wrong;
        }
    }
    return NULL;
}

static void note_woken(struct causes_seen *seen, const struct moment *m,
                       uint32_t i)
{
    uint32_t cause = m->after->thread[i].cause;
    uint32_t own = own_cause(m->step->kind);

    seen->by[cause]++;
    seen->settled += own != NO_CAUSE && cause != own;
    seen->settled_none += own == NO_CAUSE;
    seen->own += m->step->caller == i;
}

/* A thread that was woken by an earlier step, and not by this one. */
static void note_kept(struct causes_seen *seen, const struct moment *m,
                      uint32_t i)
{
    const struct thread *before = &m->before->thread[i];

    seen->ended += before->call.kind != 0 && (m->result->finished >> i & 1);
    seen->asleep_again += before->state == READY
        && m->after->thread[i].state != READY;
}

static void note_threads(struct causes_seen *seen, const struct moment *m)
{
    for (uint32_t i = 0; i < m->after->sizes.threads; i++) {
        if (m->result->woken >> i & 1) {
            note_woken(seen, m, i);
        } else if (m->before->thread[i].cause != NO_CAUSE) {
            note_kept(seen, m, i);
        }
    }
}

static bool someone_has_woken(const struct tables *t)
{
    for (uint32_t i = 0; i < t->sizes.threads; i++) {
        if (t->thread[i].cause != NO_CAUSE) {
            return true;
        }
    }
    return false;
}

void note_causes(struct causes_seen *seen, const struct moment *m)
{
    if (m->result->code != ACCEPTED) {
        seen->refused += m->result->code != BROKEN_TABLES
            && someone_has_woken(m->before);
        return;
    }
    note_threads(seen, m);
    seen->last += m->before->steps == LAST_STEP;
    seen->reached += m->before->steps != LAST_STEP
        && m->after->steps == LAST_STEP;
}

void print_wakings(const struct causes_seen *seen)
{
    const char *between = "wakings by";

    for (uint32_t c = BY_SIGNAL; c < CAUSES; c++) {
        printf("%s %s %llu", between, cause_name(c),
               (unsigned long long)seen->by[c]);
        between = ",";
    }
    printf("; by a continued call, not the step's cause %llu, in a step "
           "without one %llu; of the caller %llu\n",
           (unsigned long long)seen->settled,
           (unsigned long long)seen->settled_none,
           (unsigned long long)seen->own);
}

void print_kept(const struct causes_seen *seen)
{
    printf("causes kept where the call ended %llu, asleep again %llu, refused "
           "%llu; steps that came to the last number %llu, at it %llu\n",
           (unsigned long long)seen->ended,
           (unsigned long long)seen->asleep_again,
           (unsigned long long)seen->refused,
           (unsigned long long)seen->reached, (unsigned long long)seen->last);
}
