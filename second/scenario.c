/* Putting a random trace together. */
#include "scenario.h"

#include "director.h"
#include "trace.h"

#include <string.h>

enum { MOST_STEPS = TRACE_LIMIT / (LENGTH_BYTES + STEP_BYTES) };

static const char *const NAMES[SHAPES] = {
    "semaphores", "queues", "references", "events", "mailboxes", "pools",
    "sleeps", "mixed", "wild", "long", "damaged"
};

const char *shape_name(uint32_t shape)
{
    return shape < SHAPES ? NAMES[shape] : NULL;
}

bool shape_by_name(const char *name, uint32_t *shape)
{
    for (uint32_t k = 0; k < SHAPES; k++) {
        if (strcmp(name, NAMES[k]) == 0) {
            *shape = k;
            return true;
        }
    }
    return false;
}

/* ---- sizes ------------------------------------------------------------ */

/* None, one, as many as there may be, or any number. */
static uint32_t some_size(struct random *r, uint32_t most)
{
    switch (random_below(r, 6)) {
    case 0:
        return 0;
    case 1:
    case 2:
        return 1;
    case 3:
        return most;
    default:
        return random_below(r, most + 1);
    }
}

static uint32_t some_threads(struct random *r)
{
    switch (random_below(r, 6)) {
    case 0:
        return random_between(r, 1, 2);
    case 1:
        return MAX_THREADS;
    case 2:
    case 3:
        return random_between(r, 3, 6);
    default:
        return random_between(r, 1, MAX_THREADS);
    }
}

/* Small mailboxes block most. */
static uint32_t some_slots(struct random *r)
{
    if (random_chance(r, 40)) {
        return 1;
    }
    return random_chance(r, 50) ? random_between(r, 2, 3)
                                : random_between(r, 1, MAX_SLOTS);
}

static uint32_t at_least_one(uint32_t n)
{
    return n > 0 ? n : 1;
}

/* The object that the shape turns around must be there. */
static void ensure_focus(struct sizes *z, uint32_t shape)
{
    switch (shape) {
    case SHAPE_SEMAPHORES:
        z->semaphores = at_least_one(z->semaphores);
        break;
    case SHAPE_QUEUES:
        z->queues = at_least_one(z->queues);
        break;
    case SHAPE_REFERENCES:
        z->references = at_least_one(z->references);
        break;
    case SHAPE_MAILBOXES:
        z->mailboxes = at_least_one(z->mailboxes);
        break;
    case SHAPE_POOLS:
        z->pools = at_least_one(z->pools);
        break;
    default:
        break;
    }
}

static struct sizes some_sizes(struct random *r, uint32_t shape)
{
    struct sizes z = { 0 };

    z.threads = some_threads(r);
    z.semaphores = some_size(r, MAX_SEMAPHORES);
    z.queues = some_size(r, MAX_QUEUES);
    z.references = some_size(r, MAX_REFERENCES);
    z.mailboxes = some_size(r, MAX_MAILBOXES);
    z.pools = some_size(r, MAX_POOLS);
    ensure_focus(&z, shape);
    for (uint32_t m = 0; m < z.mailboxes; m++) {
        z.slots[m] = some_slots(r);
    }
    return z;
}

/* ---- length ----------------------------------------------------------- */

static uint32_t most_steps(const struct sizes *z)
{
    uint32_t head = 1 + LENGTH_BYTES + SIZES_BYTES + z->mailboxes;

    return (TRACE_LIMIT - head) / (LENGTH_BYTES + STEP_BYTES);
}

static uint32_t some_length(struct random *r, uint32_t shape,
                            const struct sizes *z)
{
    uint32_t dice = random_below(r, 100);

    if (shape == SHAPE_LONG) {
        return most_steps(z) - random_below(r, 2);
    }
    if (dice < 6) {
        return random_below(r, 4);
    }
    if (dice < 50) {
        return random_between(r, 4, 60);
    }
    return dice < 90 ? random_between(r, 60, 300)
                     : random_between(r, 300, 1000);
}

/* ---- the trace -------------------------------------------------------- */

/* Events, mailboxes and pools twice: their calls go on after the waking. */
static uint32_t some_shape(struct random *r)
{
    static const uint8_t usual[] = {
        SHAPE_SEMAPHORES, SHAPE_QUEUES, SHAPE_REFERENCES, SHAPE_EVENTS,
        SHAPE_EVENTS, SHAPE_MAILBOXES, SHAPE_MAILBOXES, SHAPE_POOLS,
        SHAPE_POOLS, SHAPE_SLEEPS, SHAPE_MIXED, SHAPE_MIXED
    };
    uint32_t dice = random_below(r, 100);

    if (dice < 12) {
        return SHAPE_DAMAGED;
    }
    if (dice < 18) {
        return SHAPE_WILD;
    }
    return dice < 19 ? SHAPE_LONG : usual[random_below(r, sizeof usual)];
}

static struct director some_director(struct random *r, uint32_t shape)
{
    uint32_t focus = shape <= SHAPE_SLEEPS ? shape : FAMILIES;
    uint32_t wild = random_chance(r, 30) ? 0 : random_between(r, 1, 12);

    if (shape == SHAPE_WILD) {
        wild = random_between(r, 30, 100);
    }
    return new_director(r, focus, wild);
}

/* The model runs beside, so that the director knows where the steps lead. */
static size_t direct(struct random *r, uint32_t shape, const struct sizes *z,
                     struct step *steps)
{
    struct director d = some_director(r, shape);
    struct tables t;
    uint32_t count = some_length(r, shape, z);

    fresh_tables(&t, z, NULL);
    for (uint32_t k = 0; k < count; k++) {
        steps[k] = next_step(&d, &t);
        do_step(&t, &steps[k]);
    }
    return count;
}

void make_scenario(uint64_t seed, uint32_t shape, struct bytes *out)
{
    static struct step steps[MOST_STEPS];
    struct random random = { seed };
    struct sizes sizes;
    size_t count;

    if (shape >= SHAPES) {
        shape = some_shape(&random);
    }
    sizes = some_sizes(&random, shape);
    count = direct(&random, shape, &sizes, steps);
    trace_write(&sizes, steps, count, out->at, TRACE_LIMIT, &out->length);
    if (shape == SHAPE_DAMAGED) {
        damage(&random, out);
    }
}
