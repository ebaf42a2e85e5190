/*
 * Calls that may have to wait. Each is tried: it answers, or says that it must
 * wait. The same trying serves a mailbox call that is continued.
 */
#include "work.h"

static const struct answer NOTHING = { MSG_OK, 0 };

/* The call a step makes: "a call that sleeps keeps 0 for unused fields; 12's
   full timeout is the interval slept". */
static struct call call_of(const struct tables *t, const struct step *s)
{
    struct call c = { s->kind, s->object, 0, s->timeout };

    switch (s->kind) {
    case SLEEP_FOR:
        c.object = 0;
        break;
    case SLEEP_UNTIL:
        c.object = 0;
        c.operand = s->a;
        c.timeout = s->a - t->clock.time;
        break;
    case EVENT_WAIT:
        c.object = 0;
        c.operand = s->a;
        break;
    case POST:
    case POST_AHEAD:
        c.operand = s->a;
        break;
    default:
        break;
    }
    return c;
}

static bool try_semaphore(struct work *w, uint32_t s, struct answer *out)
{
    if (w->t->semaphore[s] <= 0) {
        return false;
    }
    add_to(&w->t->semaphore[s], -1);
    *out = NOTHING;
    return true;
}

/* "Clears and answers all pending flags in its mask." */
static uint32_t take_flags(struct thread *th, uint32_t mask)
{
    uint32_t taken = th->pending & mask;

    th->pending &= ~mask;
    return taken;
}

/* "Pending flags in a are cleared and are the datum", where there are any. */
static bool try_events(struct thread *th, uint32_t mask, struct answer *out)
{
    if ((th->pending & mask) == 0) {
        return false;
    }
    *out = (struct answer){ MSG_OK, take_flags(th, mask) };
    return true;
}

/* "With room, post writes at the write place; ahead steps the read place back
   and writes there"; then the first reader is released with 0. */
static bool try_post(struct work *w, const struct call *c, struct answer *out)
{
    struct mailbox *box = &w->t->mailbox[c->object];
    uint32_t slots = w->t->sizes.slots[c->object];

    if (box->count >= slots) {
        return false;
    }
    if (c->kind == POST) {
        box->slot[box->write] = as_message(c->operand);
        box->write = (box->write + 1) % slots;
    } else {
        box->read = (box->read + slots - 1) % slots;
        box->slot[box->read] = as_message(c->operand);
    }
    box->count++;
    release_first(w, (struct place){ AT_READERS, c->object }, MSG_OK);
    *out = NOTHING;
    return true;
}

/* "Fetch takes from the read place"; then the first writer is released. */
static bool try_fetch(struct work *w, const struct call *c, struct answer *out)
{
    struct mailbox *box = &w->t->mailbox[c->object];
    uint32_t slots = w->t->sizes.slots[c->object];

    if (box->count == 0) {
        return false;
    }
    *out = (struct answer){ MSG_OK, (uint32_t)box->slot[box->read] };
    box->read = (box->read + 1) % slots;
    box->count--;
    release_first(w, (struct place){ AT_WRITERS, c->object }, MSG_OK);
    return true;
}

/* "The whole mailbox rule": reset state comes before room. */
static bool try_mailbox(struct work *w, const struct call *c,
                        struct answer *out)
{
    if (w->t->mailbox[c->object].reset != 0) {
        *out = (struct answer){ MSG_RESET, 0 };
        return true;
    }
    return c->kind == FETCH ? try_fetch(w, c, out) : try_post(w, c, out);
}

static uint32_t take_top(struct pool *p)
{
    uint32_t object = p->list[--p->length];

    p->mark[object] = OUT;
    return object;
}

/* By the counter, never by the list: an object promised to a woken thread is
   still in the list, but no longer counted. */
static bool try_alloc(struct work *w, uint32_t p, struct answer *out)
{
    struct pool *pool = &w->t->pool[p];

    if (pool->counter <= 0) {
        return false;
    }
    add_to(&pool->counter, -1);
    *out = (struct answer){ MSG_OK, take_top(pool) };
    return true;
}

bool may_sleep(uint32_t kind)
{
    switch (kind) {
    case SEMAPHORE_WAIT:
    case QUEUE_WAIT:
    case SUSPEND:
    case SLEEP_FOR:
    case SLEEP_UNTIL:
    case EVENT_WAIT:
    case POST:
    case POST_AHEAD:
    case FETCH:
    case POOL_ALLOC:
        return true;
    default:
        return false;
    }
}

static bool try_call(struct work *w, uint32_t caller, const struct call *c,
                     struct answer *out)
{
    switch (c->kind) {
    case SEMAPHORE_WAIT:
        return try_semaphore(w, c->object, out);
    case EVENT_WAIT:
        return try_events(&w->t->thread[caller], c->operand, out);
    case POST:
    case POST_AHEAD:
    case FETCH:
        return try_mailbox(w, c, out);
    case POOL_ALLOC:
        return try_alloc(w, c->object, out);
    default:
        return false; /* queue wait, suspend and sleep always wait */
    }
}

/* An interrupt never gets to sleep here: refusal 4 lets it through with
   timeout 0 alone. */
bool make_call(struct work *w, const struct step *s, struct answer *out)
{
    struct call c = call_of(w->t, s);

    if (try_call(w, s->caller, &c, out)) {
        return true;
    }
    if (c.timeout == IMMEDIATE) {
        *out = (struct answer){ MSG_TIMEOUT, 0 };
        return true;
    }
    put_to_sleep(w, s->caller, c);
    return false;
}

static bool is_mailbox_call(uint32_t kind)
{
    return kind == POST || kind == POST_AHEAD || kind == FETCH;
}

/* "Mailbox, wake message 0: the whole mailbox rule is tried again ...; pool,
   message 0: it takes the top; all others answer their wake message with
   datum 0." Document 02, 2/13: an event wait woken with 0 takes its flags now
   (in tables from outside there may be none); "a wait that timed out still
   answers -1 with 0, and flags that came afterwards stay pending". Whom it
   wakes it wakes for itself, and not for the step. */
void continue_call(struct work *w, uint32_t i)
{
    struct thread *th = &w->t->thread[i];
    struct call c = th->call;
    struct answer answer = { th->wake_message, 0 };

    w->at_work = c.kind;
    if (th->wake_message == MSG_OK) {
        if (is_mailbox_call(c.kind) && !try_mailbox(w, &c, &answer)) {
            put_to_sleep(w, i, c);
            return;
        }
        if (c.kind == POOL_ALLOC) {
            answer.datum = take_top(&w->t->pool[c.object]);
        }
        if (c.kind == EVENT_WAIT) {
            answer.datum = take_flags(th, c.operand);
        }
    }
    finish(w, i, answer);
    tell(w, (struct finished_call){ i, c.kind, c.object, c.operand, answer });
}
