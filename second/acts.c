/* Steps that never sleep. */
#include "work.h"

static void tick(struct work *w)
{
    w->t->clock.time++; /* unsigned: "from 4294967295 to 0" */
    for (uint32_t i = 0; i < w->t->sizes.threads; i++) {
        struct thread *th = &w->t->thread[i];

        if (th->remaining > 0) {
            th->remaining--;
            if (th->remaining == 0) {
                time_out(w, i);
            }
        }
    }
}

/* Document 02, 6/13: at the top it "answers message 1 in place of 0". */
static int32_t plain_signal(struct work *w, uint32_t s)
{
    return signal_at(w, (struct place){ AT_SEMAPHORE, s }) ? MSG_OK
                                                           : MSG_NOT_COUNTED;
}

/* "Counter becomes a; all waiters are made ready with -2." */
static void reset_semaphore(struct work *w, const struct step *s)
{
    release_all(w, (struct place){ AT_SEMAPHORE, s->object }, MSG_RESET);
    w->t->semaphore[s->object] = (int32_t)s->a;
}

/* "As 3 if the counter is below 1, else nothing." Below 1 it counts: it is told
   so, and has nothing to answer. */
static void binary_signal(struct work *w, uint32_t s)
{
    if (w->t->semaphore[s] < 1) {
        (void)signal_at(w, (struct place){ AT_SEMAPHORE, s });
    }
}

/* "Resume of an empty reference does nothing." */
static void resume(struct work *w, uint32_t r, int32_t message)
{
    uint32_t holder = w->t->reference[r];

    if (holder != NOBODY) {
        w->t->reference[r] = NOBODY;
        make_ready(w, holder, message);
    }
}

/* "If its state is awaiting events, for any of them, it is made ready."
   Document 02, 2/13: the flags are not taken at the waking; "the call stays
   unfinished until it is continued", and until then further flags may come. */
static void signal_events(struct work *w, uint32_t i, uint32_t flags)
{
    struct thread *th = &w->t->thread[i];

    th->pending |= flags;
    if (th->state == AWAITING_EVENTS && (th->pending & th->awaited) != 0) {
        make_ready(w, i, MSG_OK);
    }
}

/* "Reset empties, returns both places to 0, sets reset state and releases
   both queues with -2." */
static void reset_mailbox(struct work *w, uint32_t m)
{
    struct mailbox *box = &w->t->mailbox[m];

    box->count = 0;
    box->read = 0;
    box->write = 0;
    box->reset = 1;
    release_all(w, (struct place){ AT_WRITERS, m }, MSG_RESET);
    release_all(w, (struct place){ AT_READERS, m }, MSG_RESET);
}

/* "Free and add put the object on top and signal." What the signal tells is
   dropped: "a pool never gets there", since its counter is at most its list's
   length. */
static void give_object(struct work *w, uint32_t p, uint32_t object)
{
    struct pool *pool = &w->t->pool[p];

    pool->list[pool->length++] = object;
    pool->mark[object] = FREE;
    (void)signal_at(w, (struct place){ AT_POOL, p });
}

int32_t act(struct work *w, const struct step *s)
{
    struct place queue = { AT_QUEUE, s->object };

    switch (s->kind) {
    case TICK:
        tick(w);
        break;
    case SIGNAL:
        return plain_signal(w, s->object);
    case SEMAPHORE_RESET:
        reset_semaphore(w, s);
        break;
    case BINARY_SIGNAL:
        binary_signal(w, s->object);
        break;
    case RELEASE_FIRST:
        release_first(w, queue, as_message(s->a));
        break;
    case RELEASE_ALL:
        release_all(w, queue, as_message(s->a));
        break;
    case RESUME:
        resume(w, s->object, as_message(s->a));
        break;
    case EVENT_SIGNAL:
        signal_events(w, s->object, s->a);
        break;
    case MAILBOX_RESET:
        reset_mailbox(w, s->object);
        break;
    case MAILBOX_RESUME:
        w->t->mailbox[s->object].reset = 0;
        break;
    default: /* free and add */
        give_object(w, s->object, s->a);
        break;
    }
    return MSG_OK;
}
