/*
 * Two plants after an update: the same steps are made in both, and after each
 * the tables are compared, until they part. In the new firmware one call has
 * become another: a weight is posted ahead and not behind. What differs is
 * printed in words, a field a line, as `./compare` does, old value and new.
 * Applied to the old plant's tables the list gives the new plant's. These are
 * saved, with a checksum by which damage is found.
 */
#include "nil.h"

#include <stdio.h>

enum { SCALE, THREADS };
enum { WEIGHTS }; /* mailboxes */
enum { ALTERED = 3 };

/* Ticks a second, as the firmware was compiled with them. */
#define FREQUENCY UINT32_C(1000)

struct plant {
    nil_tables tables;
    nil_clock clock;
};

static struct plant old_plant, new_plant;
static nil_change list[NIL_FIELDS];

static const nil_request steps[] = {
    { NIL_POST, SCALE, WEIGHTS, 0, 120, NIL_IMMEDIATE },
    { NIL_TICK, NIL_INTERRUPT, 0, 0, 0, 0 },
    { NIL_TICK, NIL_INTERRUPT, 0, 0, 0, 0 },
    { NIL_POST, SCALE, WEIGHTS, 0, 35, NIL_IMMEDIATE },
    { NIL_FETCH, SCALE, WEIGHTS, 0, 0, NIL_IMMEDIATE }
};
enum { STEPS = sizeof steps / sizeof steps[0] };

/* docs/COMPARE.md's words, by object and field; those that stand for several
   fields are print_field's. */
static const char *const objects[] = {
    "thread", "reference", "queue", "semaphore", "mailbox", "pool", "clock",
    "steps"
};
static const char *const fields[][14] = {
    { "state", "place", "remaining", "pending", "awaited", "message",
      "call.kind", "call.object", "call.operand", "call.timeout",
      "answer.message", "answer.datum", "cause", "step" },
    { "holder" }, { "counter" }, { "counter" },
    { "writers", "readers", "read", "write", "count", "reset" },
    { "counter", "length" }, { "time", "frequency" }, { "number" }
};

static void print_field(const nil_change *c)
{
    unsigned field = c->field;

    if (c->object == NIL_OBJECT_MAILBOX
        && field >= NIL_FIELD_MAILBOX_MESSAGES) {
        printf("messages[%u]", field - NIL_FIELD_MAILBOX_MESSAGES);
    } else if (c->object == NIL_OBJECT_POOL
               && field >= NIL_FIELD_POOL_MARKS) {
        printf("marks[%u]", field - NIL_FIELD_POOL_MARKS);
    } else if (c->object == NIL_OBJECT_POOL && field >= NIL_FIELD_POOL_LIST) {
        printf("list[%u]", field - NIL_FIELD_POOL_LIST);
    } else {
        printf("%s", fields[c->object][field]);
    }
}

/* Counters and messages that wake or answer; a mailbox's messages are not. */
static int is_signed(const nil_change *c)
{
    switch (c->object) {
    case NIL_OBJECT_THREAD:
        return c->field == NIL_FIELD_THREAD_MESSAGE
            || c->field == NIL_FIELD_THREAD_ANSWER_MESSAGE;
    case NIL_OBJECT_QUEUE:
    case NIL_OBJECT_SEMAPHORE:
        return 1;
    case NIL_OBJECT_MAILBOX:
        return c->field <= NIL_FIELD_MAILBOX_READERS;
    case NIL_OBJECT_POOL:
        return c->field == NIL_FIELD_POOL_COUNTER;
    default:
        return 0;
    }
}

static void print_change(const nil_change *c)
{
    printf("%s %u ", objects[c->object], (unsigned)c->number);
    print_field(c);
    if (is_signed(c)) {
        printf(" %d %d\n", (int)c->old_value, (int)c->new_value);
    } else {
        printf(" %u %u\n", (unsigned)c->old_value, (unsigned)c->new_value);
    }
}

/* Returns the number of entries. Both are good tables of the same sizes, and
   the list has room for any. */
static size_t compare(void)
{
    size_t entries = 0;
    uint8_t code = nil_compare(&old_plant.tables, &old_plant.clock,
                               &new_plant.tables, &new_plant.clock, list,
                               NIL_FIELDS, &entries);

    if (code != 0) {
        printf("refused with %u\n", (unsigned)code);
    }
    for (size_t k = 0; k < entries; k++) {
        print_change(&list[k]);
    }
    return entries;
}

/* Makes steps in both plants until their tables part. Returns the number of
   entries then. */
static size_t replay(void)
{
    size_t entries = 0;

    for (size_t k = 0; k < STEPS && entries == 0; k++) {
        nil_request altered = steps[k];
        nil_result r;

        if (k == ALTERED) {
            altered.kind = NIL_POST_AHEAD;
        }
        nil_step(&old_plant.tables, &old_plant.clock, &steps[k], &r);
        nil_step(&new_plant.tables, &new_plant.clock, &altered, &r);
        printf("step %u\n", (unsigned)k + 1);
        entries = compare();
    }
    return entries;
}

static void store(void)
{
    uint8_t file[NIL_SAVED];
    uint8_t code = nil_save(&new_plant.tables, &new_plant.clock, file,
                            sizeof file);

    printf("saved %u bytes: code %u\n", (unsigned)sizeof file,
           (unsigned)code);
    file[1000] ^= 1;
    printf("loaded, one bit damaged: code %u\n",
           (unsigned)nil_load(file, sizeof file, &old_plant.tables,
                              &old_plant.clock));
    file[1000] ^= 1;
    printf("loaded: code %u\n",
           (unsigned)nil_load(file, sizeof file, &old_plant.tables,
                              &old_plant.clock));
    printf("%u entries\n", (unsigned)compare());
}

int main(void)
{
    static const nil_sizes sizes = { THREADS, 0, 0, 0, 1, 0, { 3, 0, 0, 0 } };
    size_t entries;

    if (!NIL_LAYOUT_FITS()
        || nil_fresh(&old_plant.tables, &old_plant.clock, &sizes, FREQUENCY)
               != 0
        || nil_fresh(&new_plant.tables, &new_plant.clock, &sizes, FREQUENCY)
               != 0) {
        return 1;
    }
    entries = replay();
    printf("applied: %u passed over\n",
           (unsigned)nil_apply(&old_plant.tables, &old_plant.clock, list,
                               entries));
    printf("%u entries\n", (unsigned)compare());
    store();
    /* what was printed may not have arrived */
    return fflush(stdout) == 0 ? 0 : 1;
}
