/*
 * Only the step, its result and the records are looked at: in one step a thread
 * finishes at most one call, its own step's or the one that its record kept.
 */
#include "flags.h"

#include <string.h>

/* An event wait that a thread finished. */
struct wait {
    uint32_t mask;
    struct answer answer;
    bool slept;
};

static bool finished_wait(const struct moment *m, uint32_t i, struct wait *w)
{
    bool own = m->step->caller == i;
    const struct call *kept = &m->before->thread[i].call;

    w->mask = own ? m->step->a : kept->operand;
    w->answer = m->after->thread[i].last;
    w->slept = !own;
    return (m->result->finished >> i & 1)
        && (own ? m->step->kind : kept->kind) == EVENT_WAIT;
}

static uint32_t signalled_to(const struct step *s, uint32_t i)
{
    return s->kind == EVENT_SIGNAL && s->object == i ? s->a : 0;
}

/* A wait that did not sleep has found what there was, whatever it answers. */
static bool thread_adds_up(const struct moment *m, uint32_t i)
{
    uint32_t flags = m->before->thread[i].pending | signalled_to(m->step, i);
    struct wait w;

    if (finished_wait(m, i, &w)) {
        bool takes = w.answer.message == MSG_OK || !w.slept;
        uint32_t taken = takes ? flags & w.mask : 0;

        if (w.answer.datum != taken) {
            return false;
        }
        flags -= taken;
    }
    return m->after->thread[i].pending == flags;
}

bool flags_add_up(const struct moment *m)
{
    for (uint32_t i = 0; i < m->after->sizes.threads; i++) {
        if (!thread_adds_up(m, i)) {
            return false;
        }
    }
    return true;
}

void begin_flags(struct flags_seen *seen)
{
    memset(seen->after_waking, 0, sizeof seen->after_waking);
    memset(seen->left_behind, 0, sizeof seen->left_behind);
}

static void note_woken(struct flags_seen *seen, uint32_t i,
                       const struct wait *w, uint32_t pending)
{
    seen->woken++;
    seen->late += seen->after_waking[i] != 0;
    seen->beside += pending != 0;
    seen->empty += w->answer.datum == 0;
}

static void note_timed_out(struct flags_seen *seen, uint32_t i,
                           const struct wait *w, uint32_t pending)
{
    seen->timed_out++;
    seen->kept += (pending & w->mask) != 0;
    seen->left_behind[i] |= pending & w->mask;
}

static void note_wait(struct flags_seen *seen, uint32_t i,
                      const struct wait *w, uint32_t pending)
{
    if (!w->slept) {
        seen->found += (w->answer.datum & seen->left_behind[i]) != 0;
    } else if (w->answer.message == MSG_OK) {
        note_woken(seen, i, w, pending);
    } else {
        note_timed_out(seen, i, w, pending);
    }
    seen->after_waking[i] = 0;
    seen->left_behind[i] &= ~w->answer.datum;
}

void note_flags(struct flags_seen *seen, const struct moment *m)
{
    for (uint32_t i = 0; i < m->after->sizes.threads; i++) {
        const struct thread *th = &m->before->thread[i];
        struct wait w;

        if (th->state == READY && th->call.kind == EVENT_WAIT) {
            seen->after_waking[i] |= signalled_to(m->step, i) & th->awaited
                                   & ~th->pending;
        }
        if (finished_wait(m, i, &w)) {
            note_wait(seen, i, &w, m->after->thread[i].pending);
        }
    }
}
