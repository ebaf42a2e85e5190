/*
 * Choosing the next step. No expression asks for two random numbers in an
 * order that C leaves open: the trace must be the same on every machine.
 */
#include "director.h"

enum { TRIES = 12, SHORT_TICKS = 6 };

/* How often a mood around a mailbox is a crossing, and its steps at least. */
enum { CROSS_PERCENT = 25, CROSS_STEPS = 8 };

struct kinds {
    uint32_t number;
    uint8_t kind[5];
};

/* The kinds that wait at an object of each family, and those that wake. */
static const struct kinds WAITS[FAMILIES] = {
    { 1, { SEMAPHORE_WAIT } },
    { 1, { QUEUE_WAIT } },
    { 1, { SUSPEND } },
    { 1, { EVENT_WAIT } },
    { 3, { POST, POST_AHEAD, FETCH } },
    { 1, { POOL_ALLOC } },
    { 2, { SLEEP_FOR, SLEEP_UNTIL } }
};

static const struct kinds WAKES[FAMILIES] = {
    { 4, { SIGNAL, SIGNAL, BINARY_SIGNAL, SEMAPHORE_RESET } },
    { 3, { RELEASE_FIRST, RELEASE_FIRST, RELEASE_ALL } },
    { 1, { RESUME } },
    { 1, { EVENT_SIGNAL } },
    { 5, { POST, POST_AHEAD, FETCH, FETCH, MAILBOX_RESET } },
    { 3, { POOL_FREE, POOL_FREE, POOL_ADD } },
    { 1, { TICK } }
};

uint32_t family_size(const struct sizes *z, uint32_t family)
{
    switch (family) {
    case SEMAPHORES:
        return z->semaphores;
    case QUEUES:
        return z->queues;
    case REFERENCES:
        return z->references;
    case EVENTS:
        return z->threads;
    case MAILBOXES:
        return z->mailboxes;
    case POOLS:
        return z->pools;
    default:
        return 1; /* sleeps need no object */
    }
}

static uint32_t family_of_kind(uint32_t kind)
{
    static const uint8_t family[POOL_ADD + 1] = {
        SLEEPS, SLEEPS, SEMAPHORES, SEMAPHORES, SEMAPHORES, SEMAPHORES,
        QUEUES, QUEUES, QUEUES, REFERENCES, REFERENCES, SLEEPS, SLEEPS,
        EVENTS, EVENTS, MAILBOXES, MAILBOXES, MAILBOXES, MAILBOXES,
        MAILBOXES, POOLS, POOLS, POOLS
    };

    return family[kind];
}

static uint32_t one_of(struct random *r, const struct kinds *from)
{
    return from->kind[random_below(r, from->number)];
}

/* ---- operands --------------------------------------------------------- */

static uint32_t some_edge(struct random *r)
{
    static const uint32_t edge[] = {
        0, 1, 2, 31, 32, 33, UINT32_C(0x7ffffffe), UINT32_C(0x7fffffff),
        UINT32_C(0x80000000), UINT32_C(0x80000001), UINT32_C(0xfffffffd),
        UINT32_C(0xfffffffe), UINT32_C(0xffffffff)
    };

    return edge[random_below(r, sizeof edge / sizeof edge[0])];
}

static uint32_t some_message(struct random *r)
{
    switch (random_below(r, 6)) {
    case 0:
        return MSG_OK;
    case 1:
        return (uint32_t)MSG_TIMEOUT;
    case 2:
        return (uint32_t)MSG_RESET;
    case 3:
        return some_edge(r);
    case 4:
        return random_word(r);
    default:
        return random_between(r, 1, 99);
    }
}

/* Few flags, so that masks and signals meet often. */
static uint32_t some_flags(struct random *r)
{
    if (random_chance(r, 8)) {
        return random_chance(r, 50) ? random_word(r) : UINT32_MAX;
    }
    return random_between(r, 1, 15);
}

/* One of the flags given, or any where there is none. */
static uint32_t one_flag(struct random *r, uint32_t among)
{
    uint32_t start = random_below(r, 32);

    for (uint32_t k = 0; k < 32; k++) {
        uint32_t flag = UINT32_C(1) << (start + k) % 32;

        if ((among & flag) != 0) {
            return flag;
        }
    }
    return some_flags(r);
}

/* Mostly without the flags that are pending already, else few waits sleep; and
   often wide, so that flags can come one after the other. */
static uint32_t some_mask(struct random *r, const struct tables *t,
                          uint32_t caller)
{
    uint32_t flags = some_flags(r);
    uint32_t pending = caller < MAX_THREADS ? t->thread[caller].pending : 0;

    if (random_chance(r, 50)) {
        flags |= some_flags(r) << 4;
    }
    return (flags & ~pending) != 0 && random_chance(r, 70) ? flags & ~pending
                                                           : flags;
}

static uint32_t some_timeout(struct random *r)
{
    switch (random_below(r, 10)) {
    case 0:
    case 1:
        return INFINITE;
    case 2:
        return IMMEDIATE;
    case 3:
        return random_chance(r, 30) ? some_edge(r) : random_between(r, 1, 40);
    default:
        return random_between(r, 1, SHORT_TICKS);
    }
}

/* Mostly soon; at times past, so late in the wrapped range; at times now or
   one tick ago, which refusal 6 forbids. */
static uint32_t some_time(struct random *r, uint32_t now)
{
    switch (random_below(r, 10)) {
    case 0:
        return now - random_between(r, 0, 4);
    case 1:
        return now + some_edge(r);
    case 2:
        return random_word(r);
    default:
        return now + random_between(r, 1, SHORT_TICKS);
    }
}

/* An object of the pool with the mark wanted, from a random place on; any
   number where there is none. */
static uint32_t some_marked(struct random *r, const struct pool *p,
                            uint32_t mark)
{
    uint32_t start = random_below(r, random_chance(r, 70) ? 4 : POOL_OBJECTS);

    for (uint32_t k = 0; k < POOL_OBJECTS; k++) {
        uint32_t n = (start + k) % POOL_OBJECTS;

        if (p->mark[n] == mark) {
            return n;
        }
    }
    return start;
}

/* Low counters keep waiters coming; at the top signals do not count. */
static uint32_t some_counter(struct random *r)
{
    if (random_chance(r, 10)) {
        return COUNTER_TOP - random_below(r, 2);
    }
    return random_below(r, 3);
}

static uint32_t some_operand(struct random *r, const struct tables *t,
                             const struct step *s)
{
    switch (s->kind) {
    case SEMAPHORE_RESET:
        return some_counter(r);
    case RELEASE_FIRST:
    case RELEASE_ALL:
    case RESUME:
    case POST:
    case POST_AHEAD:
        return some_message(r);
    case SLEEP_UNTIL:
        return some_time(r, t->clock.time);
    case EVENT_SIGNAL:
        return some_flags(r);
    case EVENT_WAIT:
        return some_mask(r, t, s->caller);
    case POOL_FREE:
        return s->object < t->sizes.pools
            ? some_marked(r, &t->pool[s->object], OUT) : 0;
    case POOL_ADD:
        return s->object < t->sizes.pools
            ? some_marked(r, &t->pool[s->object], ABSENT) : 0;
    default: /* unused, and so to be ignored */
        return random_chance(r, 50) ? 0 : random_word(r);
    }
}

/* ---- steps of each mood ----------------------------------------------- */

static bool needs_immediate(uint32_t kind)
{
    return kind == POST || kind == POST_AHEAD || kind == FETCH
        || kind == POOL_ALLOC;
}

static struct step complete(struct director *d, const struct tables *t,
                            uint32_t kind, uint32_t caller, uint32_t timeout)
{
    uint32_t family = family_of_kind(kind);
    uint32_t size = family_size(&t->sizes, family);
    struct step s = { (uint8_t)kind, (uint8_t)caller, 0, 0, timeout };

    if (family == d->family && random_chance(d->random, 85)) {
        s.object = (uint8_t)d->object;
    } else if (size > 0) {
        s.object = (uint8_t)random_below(d->random, size);
    }
    if (caller == INTERRUPT && needs_immediate(kind)) {
        s.timeout = IMMEDIATE;
    }
    s.a = some_operand(d->random, t, &s);
    return s;
}

/* A running thread when there is one and the dice say so, or an interrupt. */
static uint32_t some_caller(struct director *d, const struct tables *t,
                            uint32_t thread_percent)
{
    uint32_t running = running_thread(t);

    return random_chance(d->random, thread_percent) ? running : INTERRUPT;
}

/* The running thread comes to wait too; references hold one each, so theirs
   are chosen anew. */
static struct step gather_step(struct director *d, const struct tables *t)
{
    uint32_t timeout = random_chance(d->random, 70)
        ? d->timeout : some_timeout(d->random);

    if (d->family == REFERENCES) {
        d->object = random_below(d->random, t->sizes.references);
    }
    return complete(d, t, d->wait_kind, running_thread(t), timeout);
}

/* A mailbox in reset state is mostly brought back first: else its calls all
   answer -2 and nothing blocks. */
static struct step serve_step(struct director *d, const struct tables *t,
                              uint32_t thread_percent)
{
    uint32_t kind = one_of(d->random, &WAKES[d->family]);
    uint32_t caller = some_caller(d, t, thread_percent);

    if (d->family == MAILBOXES && t->mailbox[d->object].reset != 0
        && random_chance(d->random, 60)) {
        kind = MAILBOX_RESUME;
    } else if (kind == MAILBOX_RESET && random_chance(d->random, 60)) {
        kind = FETCH;
    }
    return complete(d, t, kind, kind == TICK ? INTERRUPT : caller,
                    some_timeout(d->random));
}

static bool someone_woken(const struct tables *t, uint32_t kind, uint32_t m)
{
    for (uint32_t i = 0; i < t->sizes.threads; i++) {
        const struct thread *th = &t->thread[i];

        if (th->state == READY && th->call.kind == kind
            && th->call.object == m) {
            return true;
        }
    }
    return false;
}

static bool writer_woken(const struct tables *t, uint32_t m)
{
    return someone_woken(t, POST, m) || someone_woken(t, POST_AHEAD, m);
}

/* The three moves that rob a mailbox call: have it woken, take the message or
   the room it was woken for, and make way, so that it finds nothing. */
static uint32_t robbing_move(const struct tables *t, uint32_t m)
{
    const struct mailbox *box = &t->mailbox[m];

    if (someone_woken(t, FETCH, m)) {
        return box->count > 0 ? FETCH : SLEEP_FOR;
    }
    if (writer_woken(t, m)) {
        return box->count < t->sizes.slots[m] ? POST : SLEEP_FOR;
    }
    return box->readers < 0 ? POST : FETCH;
}

/* Of the threads below the running one; below idle there is none. */
static uint32_t waiter_below(const struct tables *t, uint32_t state)
{
    for (uint32_t i = running_thread(t) + 1; i < t->sizes.threads; i++) {
        if (t->thread[i].state == state
            && t->thread[i].call.kind == EVENT_WAIT) {
            return i;
        }
    }
    return NOBODY;
}

/* Whose event wait others keep from going on: a thread that is ready and has
   not come to run yet, or else one that awaits events. */
static uint32_t slow_waiter(const struct tables *t)
{
    uint32_t ready = waiter_below(t, READY);

    return ready != NOBODY ? ready : waiter_below(t, AWAITING_EVENTS);
}

/* Mostly one flag of its mask at a time, so that others may follow late. */
static struct step signal_slow(struct director *d, const struct tables *t,
                               uint32_t i)
{
    uint32_t missing = t->thread[i].awaited & ~t->thread[i].pending;
    struct step s = complete(d, t, EVENT_SIGNAL, some_caller(d, t, 50),
                             IMMEDIATE);

    s.object = (uint8_t)i;
    if (random_chance(d->random, 70)) {
        s.a = one_flag(d->random, missing);
    }
    return s;
}

/* What goes before and after late flags: the running thread waits for events
   itself, a slow one's ticks run out, and the running one makes way for it. */
static struct step late_step(struct director *d, const struct tables *t)
{
    uint32_t slow = slow_waiter(t);

    if (slow == NOBODY) {
        return complete(d, t, EVENT_WAIT, running_thread(t), d->timeout);
    }
    if (t->thread[slow].state == READY) {
        return complete(d, t, SLEEP_FOR, running_thread(t), d->timeout);
    }
    return complete(d, t, TICK, INTERRUPT, IMMEDIATE);
}

/* The running thread takes and gives without waiting, while woken ones of
   lower priority have not come to run yet. */
static struct step rob_step(struct director *d, const struct tables *t)
{
    uint32_t kind;

    if (d->family == MAILBOXES && random_chance(d->random, 60)) {
        kind = robbing_move(t, d->object);
        return complete(d, t, kind, running_thread(t),
                        kind == SLEEP_FOR ? d->timeout : IMMEDIATE);
    }
    if (d->family == EVENTS && random_chance(d->random, 75)) {
        return late_step(d, t);
    }
    if (random_chance(d->random, 45)) {
        return serve_step(d, t, 85);
    }
    kind = one_of(d->random, &WAITS[d->family]);
    return complete(d, t, kind, running_thread(t),
                    random_chance(d->random, 70) ? IMMEDIATE : d->timeout);
}

/* Whether the first that waits on a mailbox's side is below the running thread:
   when woken it does not run at once. */
static bool first_is_below(const struct tables *t, uint32_t tag, uint32_t m)
{
    for (uint32_t i = 0; i < t->sizes.threads; i++) {
        const struct thread *th = &t->thread[i];

        if (th->state == QUEUED && th->place.tag == tag
            && th->place.index == m) {
            return i > running_thread(t);
        }
    }
    return false;
}

/* One that comes back by ticks, and then runs instead of the running one. */
static bool sleeper_above(const struct tables *t)
{
    for (uint32_t i = 0; i < running_thread(t) && i < t->sizes.threads; i++) {
        if (t->thread[i].state == SLEEPING) {
            return true;
        }
    }
    return false;
}

/* The moves after which a call that goes on wakes another. Somebody sleeps, and
   others below come to wait at the mailbox. Back again, the sleeper has one of
   them woken, comes to wait on the other side, as often as it takes, and
   whoever runs then makes way. */
static uint32_t crossing_move(const struct tables *t, uint32_t m)
{
    const struct mailbox *box = &t->mailbox[m];

    if (writer_woken(t, m)) {
        return box->readers < 0 ? SLEEP_FOR : FETCH;
    }
    if (someone_woken(t, FETCH, m)) {
        return box->writers < 0 ? SLEEP_FOR : POST;
    }
    if (first_is_below(t, AT_READERS, m)) {
        return POST;
    }
    if (first_is_below(t, AT_WRITERS, m)) {
        return FETCH;
    }
    if (!sleeper_above(t)) {
        return SLEEP_FOR;
    }
    return 2 * box->count > t->sizes.slots[m] ? POST : FETCH;
}

static struct step cross_step(struct director *d, const struct tables *t)
{
    uint32_t kind = crossing_move(t, d->object);

    if (running_thread(t) == IDLE) {
        return complete(d, t, TICK, INTERRUPT, IMMEDIATE);
    }
    if (t->mailbox[d->object].reset != 0) {
        kind = MAILBOX_RESUME;
    } else if (kind == POST && random_chance(d->random, 30)) {
        kind = POST_AHEAD;
    }
    return complete(d, t, kind, running_thread(t),
                    kind == SLEEP_FOR ? random_between(d->random, 1, 3)
                                      : d->timeout);
}

static struct step clock_step(struct director *d, const struct tables *t)
{
    if (random_chance(d->random, 55)) {
        return complete(d, t, TICK, INTERRUPT, IMMEDIATE);
    }
    return serve_step(d, t, 30);
}

static struct step mixed_step(struct director *d, const struct tables *t)
{
    uint32_t kind = random_between(d->random, TICK, POOL_ADD);
    uint32_t caller = some_caller(d, t, 70);

    return complete(d, t, kind, caller, some_timeout(d->random));
}

/* Whether the mood is around a semaphore that a reset took to the top. */
static bool near_top(const struct director *d, const struct tables *t)
{
    return d->family == SEMAPHORES
        && t->semaphore[d->object] > COUNTER_TOP - MAX_THREADS;
}

/* Signals that count up to the top and no further, waits after which they count
   again; and a reset, mostly to where threads wait again. */
static struct step top_step(struct director *d, const struct tables *t)
{
    static const struct kinds kinds = {
        5, { SIGNAL, SIGNAL, SIGNAL, SEMAPHORE_WAIT, SEMAPHORE_RESET }
    };
    uint32_t kind = one_of(d->random, &kinds);
    uint32_t caller = some_caller(d, t, kind == SEMAPHORE_WAIT ? 100 : 85);
    struct step s = complete(d, t, kind, caller, some_timeout(d->random));

    s.object = (uint8_t)d->object;
    return s;
}

/* Around events a slow waiter is signalled in between, and a semaphore near the
   top gets its steps there, whatever the mood. */
static struct step mood_step(struct director *d, const struct tables *t)
{
    uint32_t slow = d->family == EVENTS ? slow_waiter(t) : NOBODY;

    if (slow != NOBODY && random_chance(d->random, 40)) {
        return signal_slow(d, t, slow);
    }
    if (near_top(d, t) && random_chance(d->random, 70)) {
        return top_step(d, t);
    }
    switch (d->mood) {
    case GATHER:
        return gather_step(d, t);
    case SERVE:
        return serve_step(d, t, 35);
    case ROB:
        return rob_step(d, t);
    case CROSS:
        return cross_step(d, t);
    case CLOCK:
        return clock_step(d, t);
    default:
        return mixed_step(d, t);
    }
}

/* ---- moods ------------------------------------------------------------ */

static uint32_t some_family(struct director *d, const struct sizes *z)
{
    uint32_t family = random_below(d->random, FAMILIES);

    if (d->focus < FAMILIES && random_chance(d->random, 75)) {
        family = d->focus;
    }
    return family_size(z, family) > 0 ? family : SLEEPS;
}

/* Low numbers are preferred, so that moods come back to the same object. */
static uint32_t some_object(struct random *r, uint32_t size)
{
    uint32_t one = random_below(r, size);
    uint32_t other = random_below(r, size);

    return one < other ? one : other;
}

static uint32_t some_mood(struct director *d, const struct tables *t)
{
    static const uint8_t running[] = {
        GATHER, GATHER, GATHER, GATHER, SERVE, ROB, ROB, ROB, CLOCK, MIX
    };
    static const uint8_t idle[] = { SERVE, SERVE, SERVE, CLOCK, MIX };

    return running_thread(t) == IDLE
        ? idle[random_below(d->random, sizeof idle)]
        : running[random_below(d->random, sizeof running)];
}

/* A mailbox makes threads wait only when empty or full: mostly the side is
   taken that is nearer to waiting. */
static uint32_t some_wait(struct director *d, const struct tables *t)
{
    if (d->family == MAILBOXES && random_chance(d->random, 70)) {
        uint32_t count = t->mailbox[d->object].count;

        return 2 * count > t->sizes.slots[d->object] ? POST : FETCH;
    }
    return one_of(d->random, &WAITS[d->family]);
}

/* Half of the time the object stays, so that what has gathered is served. */
static void change_mood(struct director *d, const struct tables *t)
{
    d->mood = some_mood(d, t);
    d->left = random_between(d->random, 1, t->sizes.threads + 3);
    if (random_chance(d->random, 50)) {
        d->family = some_family(d, &t->sizes);
        d->object = some_object(d->random, family_size(&t->sizes, d->family));
    }
    if (d->family == MAILBOXES && random_chance(d->random, CROSS_PERCENT)) {
        d->mood = CROSS;
        d->left += CROSS_STEPS;
    }
    d->wait_kind = some_wait(d, t);
    d->timeout = random_chance(d->random, 25)
        ? INFINITE : random_between(d->random, 1, SHORT_TICKS);
}

/* ---- wild steps ------------------------------------------------------- */

static void spoil_field(struct random *r, struct step *s)
{
    switch (random_below(r, 5)) {
    case 0:
        s->kind = (uint8_t)(random_chance(r, 70) ? random_below(r, 25)
                                                 : random_below(r, 256));
        break;
    case 1:
        s->caller = (uint8_t)(random_chance(r, 50) ? INTERRUPT
                                                   : random_below(r, 18));
        break;
    case 2:
        s->object = (uint8_t)(random_chance(r, 70) ? random_below(r, 20)
                                                   : random_below(r, 256));
        break;
    case 3:
        s->a = random_chance(r, 70) ? some_edge(r) : random_word(r);
        break;
    default:
        s->timeout = random_chance(r, 70) ? some_edge(r) : random_word(r);
        break;
    }
}

/* A value for refusal 6 or 7, where the kind has one. */
static void almost_right(struct random *r, const struct tables *t,
                         struct step *s)
{
    switch (s->kind) {
    case SEMAPHORE_RESET:
        s->a = UINT32_C(0x80000000) + random_below(r, 2);
        break;
    case SLEEP_FOR:
        s->timeout = random_chance(r, 50) ? IMMEDIATE : INFINITE;
        break;
    case SLEEP_UNTIL:
        s->a = t->clock.time - random_below(r, 3);
        break;
    case EVENT_WAIT:
        s->a = random_below(r, 2);
        break;
    case POOL_FREE:
    case POOL_ADD:
        s->a = random_below(r, POOL_OBJECTS + 2);
        break;
    default:
        break;
    }
}

/* From a step that is only not tried, over one almost right or with a field
   or two spoilt, to nothing but random bytes. */
static struct step wild_step(struct director *d, const struct tables *t)
{
    struct step s = random_chance(d->random, 50) ? mixed_step(d, t)
                                                 : mood_step(d, t);
    uint32_t spoils = random_below(d->random, 5);

    if (random_chance(d->random, 50)) {
        almost_right(d->random, t, &s);
    }
    if (spoils == 4) {
        spoils = 25;
    }
    while (spoils-- > 0) {
        spoil_field(d->random, &s);
    }
    return s;
}

/* ---- the director ----------------------------------------------------- */

struct director new_director(struct random *random, uint32_t focus,
                             uint32_t wild_percent)
{
    struct director d = { 0 };

    d.random = random;
    d.focus = focus;
    d.wild_percent = wild_percent;
    d.family = SLEEPS;
    d.wait_kind = SLEEP_FOR;
    d.timeout = 1;
    return d;
}

struct step next_step(struct director *d, const struct tables *t)
{
    bool stuck = running_thread(t) == IDLE
        && (d->mood == GATHER || d->mood == ROB);

    if (d->left == 0 || stuck) {
        change_mood(d, t);
    }
    d->left--;
    if (random_chance(d->random, d->wild_percent)) {
        return wild_step(d, t);
    }
    for (uint32_t k = 0; k < TRIES; k++) {
        struct step s = mood_step(d, t);

        if (refusal_of(t, &s) == ACCEPTED) {
            return s;
        }
    }
    return complete(d, t, TICK, INTERRUPT, IMMEDIATE);
}
