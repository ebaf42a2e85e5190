/* The cases are read from the ledger, from the calls told and the records. */
#include "cases.h"

#include <inttypes.h>
#include <stdio.h>

static void note_fetched(struct cases_seen *seen, const struct posting *line,
                         uint32_t caller)
{
    seen->fetched++;
    if (line->step == line->fate.step) {
        seen->fetched_at_once++;
        seen->threads_post += line->thread == caller && caller != INTERRUPT;
        seen->interrupts_post += line->thread == INTERRUPT;
        seen->own_fetch += line->fate.thread == caller;
    }
}

static void note_postings(struct cases_seen *seen, const struct account *a,
                          uint32_t step, uint32_t caller)
{
    uint64_t lost = 0;

    for (uint32_t k = 0; k < a->lines; k++) {
        const struct posting *line = &a->line[k];

        seen->posted += line->step == step;
        seen->passing += line->step == step && line->passed > 0;
        if (line->fate.what == FETCHED && line->fate.step == step) {
            note_fetched(seen, line, caller);
        }
        lost += line->fate.what == LOST && line->fate.step == step;
    }
    seen->lost += lost;
    seen->losing += lost > 0;
}

/* The object that was taken may be the one that the step gave back. */
static void note_taken(struct cases_seen *seen, const struct step *s,
                       const struct finished_call *c)
{
    bool given = c->object == s->object && c->answer.datum == s->a;

    seen->taken++;
    seen->freed_at_once += given && s->kind == POOL_FREE;
    seen->added_at_once += given && s->kind == POOL_ADD;
}

static void note_call(struct cases_seen *seen, const struct step *s,
                      const struct finished_call *c)
{
    if (c->answer.message != MSG_OK) {
        return;
    }
    seen->ahead += c->kind == POST_AHEAD;
    seen->by_interrupt[c->kind] += c->caller == INTERRUPT;
    if (c->kind == POOL_ALLOC) {
        note_taken(seen, s, c);
    }
}

static bool is_promised(const struct thread *th)
{
    return th->state == READY && th->call.kind == POOL_ALLOC
        && th->wake_message == MSG_OK;
}

static void note_promised(struct cases_seen *seen, const struct tables *t)
{
    bool promised = false;

    for (uint32_t i = 0; i < t->sizes.threads; i++) {
        promised |= is_promised(&t->thread[i]);
    }
    seen->promised += promised;
}

void note_cases(struct cases_seen *seen, const struct account *a,
                uint32_t step, const struct finished_calls *told,
                const struct moment *m)
{
    note_postings(seen, a, step, m->step->caller);
    for (uint32_t k = 0; k < told->number; k++) {
        note_call(seen, m->step, &told->call[k]);
    }
    note_promised(seen, m->after);
}

void print_cases(const struct cases_seen *seen)
{
    const uint64_t *irq = seen->by_interrupt;

    printf("messages posted %" PRIu64 ", ahead %" PRIu64 " (%" PRIu64
           " before others), fetched %" PRIu64 ", lost %" PRIu64 " at %"
           PRIu64 " resets\n", seen->posted, seen->ahead, seen->passing,
           seen->fetched, seen->lost, seen->losing);
    printf("fetched in the posting's step %" PRIu64 ": posted by the thread %"
           PRIu64 ", by the interrupt %" PRIu64 ", fetched by the caller %"
           PRIu64 "\n", seen->fetched_at_once, seen->threads_post,
           seen->interrupts_post, seen->own_fetch);
    printf("objects taken %" PRIu64 ": freed in the same step %" PRIu64
           ", added in it %" PRIu64 "; steps that leave one promised %"
           PRIu64 "\n", seen->taken, seen->freed_at_once, seen->added_at_once,
           seen->promised);
    printf("interrupts' posts %" PRIu64 ", ahead %" PRIu64 ", fetches %"
           PRIu64 ", allocs %" PRIu64 ", frees %" PRIu64 ", adds %" PRIu64
           "\n", irq[POST], irq[POST_AHEAD], irq[FETCH], irq[POOL_ALLOC],
           irq[POOL_FREE], irq[POOL_ADD]);
}
