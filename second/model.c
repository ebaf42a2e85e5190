/* One step: its refusal or effect, settling, and its result. */
#include "work.h"

#include <stddef.h>

/* "The falling number is the budget of twice the threads." */
uint32_t settling_budget(const struct tables *t)
{
    return 2 * t->sizes.threads;
}

/* "Then the running thread is chosen anew. ... Settling ends when the running
   thread has no unfinished call." Should the budget ever run out, settling
   stops there, and the next step finds the running thread with an unfinished
   call: refusal 1. Returns how many calls were continued. */
static uint32_t settle(struct work *w)
{
    uint32_t continued = 0;

    while (continued < settling_budget(w->t)) {
        uint32_t i = running_thread(w->t);

        if (i == IDLE || w->t->thread[i].call.kind == 0) {
            break;
        }
        continue_call(w, i);
        continued++;
    }
    return continued;
}

/* "A refused step returns its number, the running thread as it stands (255
   for 1), masks 0, message 0, datum 0." */
static struct result refused(const struct tables *t, uint32_t code)
{
    struct result r = { 0 };

    r.code = code;
    r.running = code == BROKEN_TABLES ? IDLE : running_thread(t);
    return r;
}

/* A call that the step itself answered, with its answer. Its effect came before
   anything that settling does, so it is told first. */
static void finish_own(struct work *w, const struct step *s,
                       struct answer answer)
{
    if (s->caller != INTERRUPT) {
        finish(w, s->caller, answer);
    }
    tell(w, (struct finished_call){ s->caller, s->kind, s->object, s->a,
                                    answer });
}

/* Document 02, 7/13: it "rises by 1 at the start of each accepted step; at
   4294967295 it stays there". */
static void count_step(struct tables *t)
{
    if (t->steps != LAST_STEP) {
        t->steps++;
    }
}

struct result do_told_step(struct tables *t, const struct step *s,
                           struct finished_calls *told)
{
    struct work w = { t, 0, 0, s->kind, told };
    struct answer answer = { MSG_OK, 0 };
    struct result r = { 0 };
    bool answered = true;
    uint32_t code = refusal_of(t, s);

    if (told != NULL) {
        told->number = 0;
    }
    if (code != ACCEPTED) {
        return refused(t, code);
    }
    count_step(t);
    if (may_sleep(s->kind)) {
        answered = make_call(&w, s, &answer);
    } else {
        answer.message = act(&w, s);
    }
    if (answered) {
        finish_own(&w, s, answer);
    }
    r.continued = settle(&w);
    make_words(t);
    r.running = running_thread(t);
    r.woken = w.woken;
    r.finished = w.finished;
    /* A sleeping caller's last answer is 0 and 0 until its call finishes,
       which may be in this very step: so it is the result's in every case. */
    r.answer = s->caller == INTERRUPT ? answer : t->thread[s->caller].last;
    return r;
}

struct result do_step(struct tables *t, const struct step *s)
{
    return do_told_step(t, s, NULL);
}
