/* One random trace from a seed: its sizes, its length, its steps. */
#ifndef SCENARIO_H
#define SCENARIO_H

#include "damage.h"

#include <stdbool.h>

/* The shape of a trace: what its steps turn around. */
enum shape {
    SHAPE_SEMAPHORES,
    SHAPE_QUEUES,
    SHAPE_REFERENCES,
    SHAPE_EVENTS,
    SHAPE_MAILBOXES,
    SHAPE_POOLS,
    SHAPE_SLEEPS,
    SHAPE_MIXED,
    SHAPE_WILD,
    SHAPE_LONG,
    SHAPE_DAMAGED,
    SHAPES,
    SHAPE_ANY /* the seed decides */
};

/* NULL beyond the shapes. */
const char *shape_name(uint32_t shape);
bool shape_by_name(const char *name, uint32_t *shape);

void make_scenario(uint64_t seed, uint32_t shape, struct bytes *out);

#endif
