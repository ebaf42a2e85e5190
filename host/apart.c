/* The other plant is made by the second program's means, and of a host's bytes
   only where it is damaged. */
#include "apart.h"

#include "compare.h"
#include "scenario.h"
#include "spoil.h"
#include "trace.h"

enum { FEW_STEPS = 6, MANY_STEPS = 60, TRIES = 30 };

const char *apart_name(uint32_t way)
{
    static const char *const names[APART_WAYS] = {
        "nothing", "bytes that do not count", "1 to 6 steps", "all steps",
        "one field", "mailboxes, free lists", "damage", "sizes or slots"
    };

    return names[way];
}

/* ---- plants that live ------------------------------------------------- */

/* Those of a random trace. */
static struct sizes some_sizes(uint64_t seed)
{
    static struct bytes trace;
    struct reader reader;
    struct sizes z = { 1, 0, 0, 0, 0, 0, { 0 } };

    make_scenario(seed, SHAPE_MIXED, &trace);
    trace_open(&reader, trace.at, trace.length, &z);
    return z;
}

static void begin(struct random *r, const struct sizes *z, struct tables *t)
{
    uint32_t frequency = random_between(r, 1, MAX_FREQUENCY);

    fresh_tables(t, z, &frequency);
}

static void make_steps(struct director *d, uint32_t steps, struct tables *t)
{
    for (uint32_t k = 0; k < steps; k++) {
        struct step s = next_step(d, t);

        do_step(t, &s);
    }
}

void begin_life(struct life *l, uint64_t seed)
{
    struct sizes z = some_sizes(seed);

    l->random.state = seed;
    l->director = new_director(&l->random, FAMILIES, 10);
    begin(&l->random, &z, &l->tables);
}

void live(struct life *l, uint32_t steps)
{
    make_steps(&l->director, steps, &l->tables);
}

/* ---- fields ----------------------------------------------------------- */

static uint32_t some_value(struct random *r)
{
    switch (random_below(r, 4)) {
    case 0:
        return 0;
    case 1:
        return random_below(r, 40);
    case 2:
        return UINT32_MAX - random_below(r, 3);
    default:
        return random_word(r);
    }
}

/* Of an object in use. There is always a thread. */
static struct field_name some_name(struct random *r, const struct tables *t)
{
    uint32_t object = random_below(r, OBJECTS), rows;
    struct field_name name = { OBJECT_THREAD, 0, 0 };

    rows = rows_in_use(&t->sizes, object);
    if (rows > 0) {
        name.object = object;
        name.number = random_below(r, rows);
        name.field = random_below(r, fields_of(object));
    }
    return name;
}

/* The last try stays, whatever came of it. */
static void change_field(struct random *r, struct tables *t)
{
    struct tables before = *t;

    for (uint32_t k = 0; k < TRIES; k++) {
        struct change c = { some_name(r, t), 0, some_value(r) };

        *t = before;
        apply_changes(t, &c, 1);
        if (tables_hang_together(t)) {
            return;
        }
    }
}

/* Half of all fields that do not count, and what is no field. */
static void change_unused(struct random *r, struct tables *t)
{
    static struct change list[ALL_FIELDS];
    size_t entries = 0;

    for (uint32_t object = 0; object < OBJECTS; object++) {
        for (uint32_t n = 0; n < object_rows(object); n++) {
            for (uint32_t f = 0; f < fields_of(object); f++) {
                struct change c = { { object, n, f }, 0, some_value(r) };
                struct spot at;

                if (find_field(c.name, &at) && !field_counts(t, &at)
                    && random_chance(r, 50)) {
                    list[entries++] = c;
                }
            }
        }
    }
    apply_changes(t, list, entries);
    t->words.filler = random_below(r, 65536);
    for (uint32_t m = t->sizes.mailboxes; m < MAX_MAILBOXES; m++) {
        t->sizes.slots[m] = random_below(r, 65536);
    }
    for (uint32_t s = t->sizes.semaphores; s < MAX_SEMAPHORES; s++) {
        t->words.semaphore[s] = random_below(r, 65536);
    }
}

/* ---- rings and free lists --------------------------------------------- */

static void refill_box(struct random *r, struct mailbox *box, uint32_t slots)
{
    box->read = random_below(r, slots);
    box->count = random_below(r, slots + 1);
    box->write = (box->read + box->count) % slots;
    for (uint32_t k = 0; k < MAX_SLOTS; k++) {
        box->slot[k] = (int32_t)random_below(r, 3);
    }
}

/* As many as are promised stay listed at least; where threads wait, just as
   many. An odd distance leads to every object once. */
static void refill_pool(struct random *r, struct pool *pool)
{
    uint32_t listed = pool->counter > 0 ? (uint32_t)pool->counter : 0;
    uint32_t promised = pool->length - listed;
    uint32_t first = random_below(r, POOL_OBJECTS);
    uint32_t distance = 2 * random_below(r, POOL_OBJECTS / 2) + 1;

    if (pool->counter >= 0) {
        pool->length = random_between(r, promised, POOL_OBJECTS);
        pool->counter = (int32_t)(pool->length - promised);
    }
    for (uint32_t k = 0; k < POOL_OBJECTS; k++) {
        uint32_t object = (first + k * distance) % POOL_OBJECTS;

        pool->list[k] = object;
        pool->mark[object] = k < pool->length ? (uint32_t)FREE
                           : random_chance(r, 50) ? (uint32_t)ABSENT
                           : (uint32_t)OUT;
    }
}

static void refill(struct random *r, struct tables *t)
{
    for (uint32_t m = 0; m < t->sizes.mailboxes; m++) {
        refill_box(r, &t->mailbox[m], t->sizes.slots[m]);
    }
    for (uint32_t p = 0; p < t->sizes.pools; p++) {
        refill_pool(r, &t->pool[p]);
    }
}

/* ---- sizes ------------------------------------------------------------ */

/* Of another plant, or with a size one less, or a mailbox's slots, which may
   break the tables. */
static void change_sizes(struct random *r, struct tables *t)
{
    uint32_t *const size[] = {
        &t->sizes.threads, &t->sizes.semaphores, &t->sizes.queues,
        &t->sizes.references, &t->sizes.mailboxes, &t->sizes.pools
    };
    uint32_t which = random_below(r, 12);
    struct sizes other;

    if (which < 6) {
        *size[which] -= *size[which] > 0;
        make_words(t);
    } else if (which < 9 && t->sizes.mailboxes > 0) {
        which = random_below(r, t->sizes.mailboxes);
        t->sizes.slots[which] = random_between(r, 1, MAX_SLOTS);
    } else {
        other = some_sizes(random_word(r));
        begin(r, &other, t);
    }
}

/* ---- pairs ------------------------------------------------------------ */

static void make_other(struct life *l, uint32_t way, struct tables *t)
{
    struct random *r = &l->random;

    switch (way) {
    case APART_UNUSED:
        change_unused(r, t);
        break;
    case APART_STEPS:
        make_steps(&l->director, random_between(r, 1, FEW_STEPS), t);
        break;
    case APART_LIVES:
        begin(r, &l->tables.sizes, t);
        make_steps(&l->director, random_below(r, MANY_STEPS), t);
        break;
    case APART_FIELD:
        change_field(r, t);
        break;
    case APART_RINGS:
        refill(r, t);
        break;
    case APART_SIZES:
        change_sizes(r, t);
        break;
    default: /* nothing, or the bytes are damaged */
        break;
    }
}

static void spoil_some(struct random *r, struct two_plants *two)
{
    uint32_t which = random_between(r, 1, 3);

    if (which & 1) {
        spoil(r, random_below(r, SPOIL_WAYS), &two->first);
    }
    if (which & 2) {
        spoil(r, random_below(r, SPOIL_WAYS), &two->second);
    }
}

void part(struct life *l, uint32_t way, struct two_plants *two)
{
    bool turned = random_chance(&l->random, 50);
    struct tables other = l->tables;

    make_other(l, way, &other);
    from_second(turned ? &other : &l->tables, &two->first.tables,
                &two->first.clock);
    from_second(turned ? &l->tables : &other, &two->second.tables,
                &two->second.clock);
    if (way == APART_DAMAGE) {
        spoil_some(&l->random, two);
    }
}
