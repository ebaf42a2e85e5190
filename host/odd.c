/*
 * A wait that is to go on belongs to a thread that is ready and does not run:
 * so there has to be one that runs above it. Where good tables have no row of a
 * kind that is asked for they get one, which is fresh.
 */
#include "odd.h"

#include "spoil.h"

/* Of any width: one flag, a few, all 32, or what comes. */
static uint32_t some_flags(struct random *r)
{
    switch (random_below(r, 4)) {
    case 0:
        return UINT32_C(1) << random_below(r, 32);
    case 1:
        return random_between(r, 1, 15);
    case 2:
        return UINT32_MAX;
    default:
        return random_word(r) | 1;
    }
}

/* Not 0, with which an event wakes. */
static int32_t some_message(struct random *r)
{
    static const int32_t messages[] = {
        NIL_TIMEOUT, NIL_TIMEOUT, NIL_RESET, 1, 7, INT32_MAX, INT32_MIN
    };

    return messages[random_below(r, sizeof messages / sizeof messages[0])];
}

/* The object that an alloc was promised is out, without anybody's having it. */
static void withdraw(nil_pool *pool)
{
    pool->length--;
    pool->marks[pool->list[pool->length]] = NIL_OUT;
}

/* The thread is ready and has no call; whatever it waited for does not know it
   any more. */
static void stand_up(nil_tables *t, nil_thread *th)
{
    if (th->state == NIL_QUEUED) {
        t->counters[th->place]++;
    }
    if (th->state == NIL_SUSPENDED) {
        t->references[th->place] = NIL_NOBODY;
    }
    if (th->state == NIL_READY && th->call.kind == NIL_ALLOC
        && th->message == NIL_OK) {
        withdraw(&t->pools[th->call.object]);
    }
    th->state = NIL_READY;
    th->place = 0;
    th->remaining = 0;
    th->awaited = 0;
    th->call = (nil_call){ 0, 0, 0, 0 };
}

/* ---- counters near the top -------------------------------------------- */

static int32_t near_top(struct random *r)
{
    return COUNTER_TOP - (int32_t)random_below(r, 2);
}

/* Whoever waited at the semaphore stands up first. */
static void spoil_semaphore(struct random *r, nil_tables *t)
{
    uint32_t s;

    if (t->sizes.semaphores == 0) {
        t->sizes.semaphores = 1;
    }
    s = random_below(r, t->sizes.semaphores);
    for (uint32_t i = 0; i < t->sizes.threads; i++) {
        nil_thread *th = &t->threads[i];

        if (th->state == NIL_QUEUED && th->place == NIL_SEMAPHORE_PLACE + s) {
            stand_up(t, th);
        }
    }
    t->counters[NIL_SEMAPHORE_PLACE + s] = near_top(r);
}

static void spoil_pool(struct random *r, nil_tables *t)
{
    uint32_t p;

    if (t->sizes.pools == 0) {
        t->sizes.pools = 1;
    }
    p = random_below(r, t->sizes.pools);
    t->counters[NIL_POOL_PLACE + p] = near_top(r);
}

static void signal_one(struct random *r, struct where at, struct plant *p,
                       uint32_t semaphore)
{
    struct step s = { SIGNAL, INTERRUPT, (uint8_t)semaphore, 0, 0 };

    if (random_chance(r, 50)) {
        s.caller = (uint8_t)nil_first_ready(&p->tables);
    }
    expect(both_step(at, p, &s) == 0, at, "a signal near the top was refused");
}

void signal_tops(struct random *r, struct where at, struct plant *p)
{
    for (uint32_t s = 0; s < p->tables.sizes.semaphores; s++) {
        if (p->tables.counters[NIL_SEMAPHORE_PLACE + s] >= COUNTER_TOP - 1) {
            signal_one(r, at, p, s);
            signal_one(r, at, p, s);
        }
    }
}

/* ---- causes and step numbers ------------------------------------------ */

/* From one above the list to what two bytes, or one, would take for a cause of
   the list. */
static uint32_t cause_outside(struct random *r)
{
    static const uint32_t causes[] = {
        9, 10, 255, 256, 263, 65535, 65536, 65537, 65544, UINT32_MAX
    };

    return random_chance(r, 80)
        ? causes[random_below(r, sizeof causes / sizeof causes[0])]
        : random_between(r, 9, UINT32_MAX);
}

/* Near the end, or anything. */
static uint32_t some_number(struct random *r)
{
    return random_chance(r, 50) ? LAST_STEP - random_below(r, 3)
                                : random_word(r);
}

/* All rows may be in use: then none is changed. */
static void spoil_unused_cause(struct random *r, nil_tables *t)
{
    for (uint32_t i = t->sizes.threads; i < NIL_THREADS; i++) {
        t->threads[i].cause = cause_outside(r);
        t->threads[i].step = some_number(r);
    }
}

static void spoil_cause(struct random *r, uint32_t way, nil_tables *t)
{
    nil_thread *th = &t->threads[random_below(r, t->sizes.threads)];

    switch (way) {
    case CAUSE_OUTSIDE:
        th->cause = cause_outside(r);
        break;
    case CAUSE_UNUSED:
        spoil_unused_cause(r, t);
        break;
    case CAUSE_OTHER:
        th->cause = random_below(r, NIL_CAUSE_TICK + 1);
        th->step = some_number(r);
        break;
    default:
        t->steps = LAST_STEP - random_below(r, 3);
        break;
    }
}

void count_to_end(struct where at, struct plant *p)
{
    static const struct step tick = { TICK, INTERRUPT, 0, 0, 0 };

    while (p->tables.steps != LAST_STEP) {
        expect(both_step(at, p, &tick) == 0, at, "a late tick was refused");
    }
    for (uint32_t k = 0; k < 2; k++) {
        expect(both_step(at, p, &tick) == 0, at, "a last tick was refused");
    }
}

/* ---- event waits ------------------------------------------------------ */

/* A thread below the running one. Where there is none a thread above the last
   gets to run; of one thread alone a second one is made. */
static nil_thread *some_slow(struct random *r, nil_tables *t)
{
    uint32_t running = nil_first_ready(t);

    if (t->sizes.threads == 1) {
        t->sizes.threads = 2;
    }
    if (running + 1 >= t->sizes.threads) {
        running = random_below(r, t->sizes.threads - 1u);
        stand_up(t, &t->threads[running]);
    }
    return &t->threads[random_between(r, running + 1,
                                      t->sizes.threads - 1u)];
}

static void await(struct random *r, nil_thread *th)
{
    bool endless = th->call.timeout == NIL_INFINITE;

    th->state = NIL_AWAITING;
    th->remaining = endless ? 0 : random_between(r, 1, th->call.timeout);
}

/* Which flags are pending, and whether the thread awaits its own still. */
static void spoil_flags(struct random *r, uint32_t way, nil_thread *th)
{
    uint32_t others = some_flags(r) & ~th->awaited;
    uint32_t one = th->awaited & -th->awaited;

    switch (way) {
    case WAIT_NO_FLAG:
        th->pending = others;
        break;
    case WAIT_MASK_0:
    case WAIT_OTHER_MASK:
        th->pending = others;
        if (random_chance(r, 50)) {
            await(r, th);
        }
        break;
    case WAIT_AWAITED:
        await(r, th);
        th->pending = one | others;
        break;
    default:
        th->pending = (some_flags(r) & th->awaited) | one | others;
        break;
    }
}

static void spoil_wait(struct random *r, uint32_t way, nil_tables *t)
{
    nil_thread *th = some_slow(r, t);
    uint32_t mask = way == WAIT_MASK_0 ? 0 : some_flags(r);
    uint32_t timeout = random_chance(r, 30) ? NIL_INFINITE
                                            : random_between(r, 1, 9);
    bool odd_message = way == WAIT_MESSAGE
        || (way == WAIT_MASK_0 && random_chance(r, 50));

    stand_up(t, th);
    th->call = (nil_call){ NIL_EVENT_WAIT, 0, mask, timeout };
    th->awaited = mask;
    th->message = odd_message ? some_message(r) : NIL_OK;
    spoil_flags(r, way, th);
    if (way == WAIT_OTHER_MASK) {
        th->awaited ^= some_flags(r);
    }
}

void spoil_oddly(struct random *r, uint32_t way, nil_tables *t)
{
    switch (way) {
    case SEMAPHORE_TOP:
        spoil_semaphore(r, t);
        break;
    case POOL_TOP:
        spoil_pool(r, t);
        break;
    case CAUSE_OUTSIDE:
    case CAUSE_UNUSED:
    case CAUSE_OTHER:
    case LAST_NUMBERS:
        spoil_cause(r, way, t);
        break;
    default:
        spoil_wait(r, way, t);
        break;
    }
}

static void signal_some(struct random *r, struct where at, struct plant *p)
{
    struct step s = { EVENT_SIGNAL, INTERRUPT, 0, 0, 0 };

    s.object = (uint8_t)random_below(r, p->tables.sizes.threads);
    s.a = some_flags(r);
    both_step(at, p, &s);
}

static bool has_ready_wait(const nil_tables *t)
{
    for (uint32_t i = 0; i < t->sizes.threads; i++) {
        if (t->threads[i].state == NIL_READY
            && t->threads[i].call.kind == NIL_EVENT_WAIT) {
            return true;
        }
    }
    return false;
}

/* It ends: each thread falls asleep once, and no signal wakes it again. */
void let_go_on(struct random *r, struct where at, struct plant *p)
{
    while (has_ready_wait(&p->tables)) {
        struct step s = { SLEEP_FOR, 0, 0, 0, LONGEST };

        if (random_chance(r, 30)) {
            signal_some(r, at, p);
        }
        s.caller = (uint8_t)nil_first_ready(&p->tables);
        expect(both_step(at, p, &s) == 0, at, "nobody makes way");
    }
}
