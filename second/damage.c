/*
 * Each function damages a well-formed trace in one way. No expression asks for
 * two random numbers: C leaves the order of operands open, and the bytes must
 * be the same on every machine.
 */
#include "damage.h"

#include "trace.h"

#include <string.h>

static void fill(struct random *r, struct bytes *b, size_t length)
{
    for (; b->length < length; b->length++) {
        b->at[b->length] = (uint8_t)random_below(r, 256);
    }
}

static uint32_t some_offset(struct random *r, const struct bytes *b)
{
    return random_below(r, (uint32_t)b->length);
}

static void insert(struct bytes *b, size_t where, const uint8_t *what,
                   size_t length)
{
    memmove(b->at + where + length, b->at + where, b->length - where);
    memcpy(b->at + where, what, length);
    b->length += length;
}

/* Where some record of a step begins; the end where there is no step. */
static size_t some_record(struct random *r, const struct bytes *b)
{
    size_t first = 1 + LENGTH_BYTES + SIZES_BYTES + (size_t)b->at[7];
    size_t record = LENGTH_BYTES + STEP_BYTES;
    size_t number = (b->length - first) / record;

    return first + record * random_below(r, (uint32_t)number + 1);
}

static void make_empty(struct random *r, struct bytes *b)
{
    (void)r;
    b->length = 0;
}

static void change_version(struct random *r, struct bytes *b)
{
    b->at[0] = (uint8_t)(random_chance(r, 50) ? random_below(r, 4)
                                              : random_below(r, 256));
}

static void cut_anywhere(struct random *r, struct bytes *b)
{
    b->length = some_offset(r, b);
}

static void cut_early(struct random *r, struct bytes *b)
{
    b->length = random_between(r, 1, 9);
}

/* The last record loses its end, or a length its second byte. */
static void cut_late(struct random *r, struct bytes *b)
{
    b->length -= random_between(r, 1, 8);
}

static void change_size(struct random *r, struct bytes *b)
{
    static const uint8_t size[] = { 0, 1, 4, 5, 8, 9, 16, 17, 255 };
    uint32_t where = 3 + random_below(r, SIZES_BYTES + b->at[7]);

    b->at[where] = size[random_below(r, sizeof size)];
}

/* More mailboxes than allowed, their slots all there: 14 and not 13. */
static void add_mailboxes(struct random *r, struct bytes *b)
{
    uint8_t slots[MAX_SLOTS] = { 0 };
    uint32_t more = random_between(r, 1, 6);

    memset(slots, (int)random_between(r, 0, 2), sizeof slots);
    b->at[2] = (uint8_t)(b->at[2] + more);
    b->at[7] = (uint8_t)(b->at[7] + more);
    insert(b, 1 + LENGTH_BYTES + SIZES_BYTES, slots, more);
}

static void change_sizes_length(struct random *r, struct bytes *b)
{
    uint32_t where = random_chance(r, 20) ? 1 : 2;

    b->at[where] = (uint8_t)random_below(r, 14);
}

static void change_step_length(struct random *r, struct bytes *b)
{
    size_t where = some_record(r, b);

    fill(r, b, where + LENGTH_BYTES);
    b->at[where] = (uint8_t)(random_chance(r, 80) ? 0 : random_below(r, 256));
    b->at[where + 1] = (uint8_t)(random_chance(r, 80) ? random_below(r, 14)
                                                      : random_below(r, 256));
}

static void change_byte(struct random *r, struct bytes *b)
{
    uint32_t where = some_offset(r, b);

    b->at[where] = (uint8_t)random_below(r, 256);
}

static void add_garbage(struct random *r, struct bytes *b)
{
    fill(r, b, b->length + random_between(r, 1, 30));
}

/* A whole record of another length between two steps. */
static void insert_record(struct random *r, struct bytes *b)
{
    uint8_t record[LENGTH_BYTES + 32] = { 0 };
    uint32_t length = random_below(r, 32);

    record[1] = (uint8_t)length;
    insert(b, some_record(r, b), record, LENGTH_BYTES + length);
}

static void repeat_until(struct bytes *b, size_t length)
{
    static const uint8_t tick[LENGTH_BYTES + STEP_BYTES] = {
        0, STEP_BYTES, TICK, INTERRUPT
    };

    for (size_t k = 0; b->length < length; k++) {
        b->at[b->length++] = tick[k % sizeof tick];
    }
}

/* Around the limit: 60,000 is fine, one more is 15 whatever else is wrong. */
static void make_long(struct random *r, struct bytes *b)
{
    repeat_until(b, TRACE_LIMIT + random_below(r, 3));
    if (random_chance(r, 20)) {
        change_version(r, b);
    }
}

static void make_too_long(struct random *r, struct bytes *b)
{
    repeat_until(b, TRACE_LIMIT + random_between(r, 1, 5000));
    if (random_chance(r, 30)) {
        change_version(r, b);
    }
}

static void all_random(struct random *r, struct bytes *b)
{
    b->length = 0;
    fill(r, b, random_below(r, 200));
    if (random_chance(r, 70)) {
        b->at[0] = TRACE_VERSION;
        b->at[1] = 0;
    }
}

void damage(struct random *r, struct bytes *b)
{
    static void (*const ways[])(struct random *, struct bytes *) = {
        make_empty, change_version, cut_anywhere, cut_anywhere, cut_early,
        cut_late, change_size, change_size, add_mailboxes,
        change_sizes_length, change_step_length, change_step_length,
        change_byte, add_garbage, insert_record, make_long, make_too_long,
        all_random
    };

    ways[random_below(r, sizeof ways / sizeof ways[0])](r, b);
}
