/*
 * A field is named by its offset and width. No expression asks for two random
 * numbers in an order that C leaves open.
 */
#include "spoil.h"

#include "odd.h"

#include <string.h>

enum { MOST_FIELDS = 1000 };

struct field {
    uint16_t at;
    uint16_t width;
};

static struct field fields[MOST_FIELDS];
static uint32_t fields_number;
static uint32_t thread_fields; /* of one thread; they stand first in order */

static void add_fields(size_t at, size_t width, size_t number)
{
    for (size_t k = 0; k < number; k++) {
        fields[fields_number].at = (uint16_t)(at + k * width);
        fields[fields_number].width = (uint16_t)width;
        fields_number++;
    }
}

static void add_thread(size_t at)
{
    add_fields(at + offsetof(nil_thread, state), 2, 2);
    add_fields(at + offsetof(nil_thread, remaining), 4, 4);
    add_fields(at + offsetof(nil_thread, call.kind), 2, 2);
    add_fields(at + offsetof(nil_thread, call.operand), 4, 2);
    add_fields(at + offsetof(nil_thread, answer), 4, 2);
    add_fields(at + offsetof(nil_thread, cause), 4, 2);
}

static void find_fields(void)
{
    for (size_t i = 0; i < NIL_THREADS; i++) {
        add_thread(offsetof(struct plant, tables.threads)
                   + i * sizeof(nil_thread));
    }
    thread_fields = fields_number / NIL_THREADS;
    add_fields(offsetof(struct plant, tables.counters), 4, NIL_PLACES);
    add_fields(offsetof(struct plant, tables.references), 1, NIL_REFERENCES);
    add_fields(offsetof(struct plant, tables.words), 2, NIL_PLACES + 2);
    add_fields(offsetof(struct plant, tables.steps), 4, 1);
    for (size_t m = 0; m < NIL_MAILBOXES; m++) {
        size_t at = offsetof(struct plant, tables.mailboxes)
                  + m * sizeof(nil_mailbox);

        add_fields(at, 2, 4);
        add_fields(at + offsetof(nil_mailbox, messages), 4, NIL_SLOTS);
    }
    for (size_t p = 0; p < NIL_POOLS; p++) {
        size_t at = offsetof(struct plant, tables.pools) + p * sizeof(nil_pool);

        add_fields(at, 2, 1);
        add_fields(at + offsetof(nil_pool, list), 1, 2 * NIL_OBJECTS);
    }
    add_fields(offsetof(struct plant, tables.sizes), 2, 6 + NIL_MAILBOXES);
    add_fields(offsetof(struct plant, clock), 4, 2);
}

static uint32_t get_field(const struct plant *p, const struct field *f)
{
    uint32_t value = 0;

    memcpy(&value, (const char *)p + f->at, f->width); /* lowest byte first */
    return value;
}

static void set_field(struct plant *p, const struct field *f, uint32_t value)
{
    memcpy((char *)p + f->at, &value, f->width);
}

/* A field of a thread in use, where the tests are many, or any field. An
   earlier damage may have changed the sizes. */
static const struct field *some_field(struct random *r, const struct plant *p)
{
    if (random_chance(r, 60)) {
        uint32_t used = p->tables.sizes.threads;
        uint32_t i = random_below(r, used < NIL_THREADS ? used : NIL_THREADS);

        return &fields[i * thread_fields + random_below(r, thread_fields)];
    }
    return &fields[random_below(r, fields_number)];
}

static uint32_t some_value(struct random *r, const struct plant *p,
                           const struct field *f)
{
    switch (random_below(r, 6)) {
    case 0:
        return random_below(r, 37);
    case 1:
        return get_field(p, f) + 1;
    case 2:
        return get_field(p, f) - 1;
    case 3:
        return get_field(p, &fields[random_below(r, fields_number)]);
    case 4:
        return UINT32_MAX - random_below(r, 3);
    default:
        return random_chance(r, 50) ? 0 : random_word(r);
    }
}

static void spoil_field(struct random *r, struct plant *p)
{
    const struct field *f = some_field(r, p);
    uint32_t value = some_value(r, p, f);

    set_field(p, f, value);
}

static void spoil_bytes(struct random *r, struct plant *p, size_t at,
                        size_t length)
{
    for (size_t k = at; k < at + length; k++) {
        ((uint8_t *)p)[k] = (uint8_t)random_below(r, 256);
    }
}

static void spoil_stretch(struct random *r, struct plant *p)
{
    uint32_t at = random_below(r, sizeof *p);
    uint32_t most = (uint32_t)sizeof *p - at;

    spoil_bytes(r, p, at, random_between(r, 1, most < 40 ? most : 40));
}

static void spoil_bit(struct random *r, struct plant *p)
{
    uint32_t bit = random_below(r, 8 * sizeof *p);

    ((uint8_t *)p)[bit / 8] ^= (uint8_t)(1u << bit % 8);
}

/* ---- words ------------------------------------------------------------ */

/* The words of the records as they are now: so that a damage to a record shows
   by what the other rules say of it. */
static void mend_words(struct plant *p)
{
    struct tables t;

    to_second(&p->tables, &p->clock, &t);
    if (sizes_in_limits(&t.sizes)) {
        make_words(&t);
        from_second(&t, &p->tables, &p->clock);
    }
}

static bool in_use(const nil_sizes *z, uint32_t place)
{
    return place < NIL_POOL_PLACE ? place < z->semaphores
         : place < NIL_QUEUE_PLACE ? place - NIL_POOL_PLACE < z->pools
         : place < NIL_WRITERS_PLACE ? place - NIL_QUEUE_PLACE < z->queues
         : (place - NIL_WRITERS_PLACE) % NIL_MAILBOXES < z->mailboxes;
}

/* The ready word, the word of a place where some thread waits, or of any place
   in use; the ready word where there is none. */
static uint16_t *some_word(struct random *r, nil_tables *t)
{
    uint32_t place = random_below(r, NIL_PLACES);
    const nil_thread *th = &t->threads[random_below(r, t->sizes.threads)];

    if (random_chance(r, 40)) {
        return &t->words.ready;
    }
    if (th->state == NIL_QUEUED) {
        return &t->words.waiting[th->place];
    }
    return in_use(&t->sizes, place) ? &t->words.waiting[place]
                                    : &t->words.ready;
}

/* Turns round one bit of those in the mask; of an empty mask some other ones,
   one at least. */
static void turn_bit(struct random *r, uint16_t *word, uint32_t mask)
{
    uint32_t bit = random_below(r, 16);

    if (mask == 0) {
        *word ^= (uint16_t)random_between(r, 1, 65535);
        return;
    }
    while ((mask >> bit & 1) == 0) {
        bit = (bit + 1) % 16;
    }
    *word ^= (uint16_t)(UINT32_C(1) << bit);
}

static void spoil_word(struct random *r, uint32_t way, nil_tables *t)
{
    uint32_t threads = (UINT32_C(1) << t->sizes.threads) - 1;
    uint16_t *word = some_word(r, t);

    switch (way) {
    case BIT_MISSING:
        turn_bit(r, word, *word);
        break;
    case BIT_TOO_MANY:
        turn_bit(r, word, ~(uint32_t)*word & threads);
        break;
    case BIT_BEYOND:
        turn_bit(r, word, UINT32_C(65535) & ~threads);
        break;
    default:
        turn_bit(r, word, 0);
        break;
    }
}

static void spoil_unused(struct random *r, nil_tables *t)
{
    for (uint32_t place = 0; place < NIL_PLACES; place++) {
        if (!in_use(&t->sizes, place)) {
            t->words.waiting[place] = (uint16_t)random_below(r, 65536);
        }
    }
    t->words.unused = (uint16_t)random_below(r, 65536);
}

/* ---- nearly good ------------------------------------------------------ */

/* The calls that wait at a counter: their places, and how many objects. */
static uint32_t first_place(const nil_sizes *z, uint32_t kind, uint32_t *limit)
{
    switch (kind) {
    case NIL_SEMAPHORE_WAIT:
        *limit = z->semaphores;
        return NIL_SEMAPHORE_PLACE;
    case NIL_QUEUE_WAIT:
        *limit = z->queues;
        return NIL_QUEUE_PLACE;
    case NIL_POST:
    case NIL_POST_AHEAD:
        *limit = z->mailboxes;
        return NIL_WRITERS_PLACE;
    case NIL_FETCH:
        *limit = z->mailboxes;
        return NIL_READERS_PLACE;
    case NIL_ALLOC:
        *limit = z->pools;
        return NIL_POOL_PLACE;
    default:
        *limit = 0;
        return 0;
    }
}

/* A thread's call goes to another object, or just past the last one, with its
   place and both counters; the words are mended afterwards. */
static void move_call(struct random *r, nil_tables *t)
{
    nil_thread *th = &t->threads[random_below(r, t->sizes.threads)];
    uint32_t limit;
    uint32_t first = first_place(&t->sizes, th->call.kind, &limit);
    uint32_t object = random_chance(r, 50) ? limit
                                           : random_below(r, limit + 1);

    if (limit == 0) {
        return;
    }
    th->call.object = (uint16_t)object;
    if (th->state == NIL_QUEUED && first + object < NIL_PLACES) {
        t->counters[th->place]++;
        th->place = (uint16_t)(first + object);
        t->counters[th->place]--;
    }
}

/* A ring's worth more messages leave both places where they are. */
static void overfill(struct random *r, nil_tables *t)
{
    uint32_t m = random_below(r, NIL_MAILBOXES);

    t->mailboxes[m].count =
        (uint16_t)(t->mailboxes[m].count + t->sizes.slots[m]);
}

/* One more object in a free list and in the counter; its mark may say so. */
static void list_again(struct random *r, nil_tables *t)
{
    uint32_t p = random_below(r, NIL_POOLS);
    uint32_t object = random_below(r, NIL_OBJECTS + 1);
    nil_pool *pool = &t->pools[p];
    int32_t *counter = &t->counters[NIL_POOL_PLACE + p];

    if (pool->length < NIL_OBJECTS && *counter >= 0) {
        pool->list[pool->length++] = (uint8_t)object;
        ++*counter;
        if (object < NIL_OBJECTS && random_chance(r, 50)) {
            pool->marks[object] = NIL_FREE_MARK;
        }
    }
}

static void spoil_slightly(struct random *r, nil_tables *t)
{
    switch (random_below(r, 4)) {
    case 0:
        overfill(r, t);
        break;
    case 1:
        list_again(r, t);
        break;
    default:
        move_call(r, t);
        break;
    }
}

/* Both are good records: what breaks is what others say of them. */
static void exchange_rows(struct random *r, struct plant *p)
{
    nil_thread *one = &p->tables.threads[random_below(
        r, p->tables.sizes.threads)];
    nil_thread *other = &p->tables.threads[random_below(
        r, p->tables.sizes.threads)];
    nil_thread kept = *one;

    *one = *other;
    *other = kept;
}

const char *spoil_name(uint32_t way)
{
    static const char *const names[SPOIL_WAYS] = {
        "one field", "2 to 5 fields", "one bit", "1 to 40 random bytes",
        "nearly good", "two rows exchanged", "random, sizes good",
        "all bytes random", "a word's bit missing", "a word's bit too many",
        "a word's bit from T on", "another word", "words not in use",
        "semaphore near the top", "pool near the top",
        "cause outside the list", "the same, not in use",
        "another cause, number", "step number at its end",
        "event wait, no flag", "event wait, flags", "event wait, not with 0",
        "event wait, mask 0", "awaited flag pending", "awaited not the mask"
    };

    return names[way];
}

bool spoil_allows(uint32_t way, uint32_t code)
{
    switch (way) {
    case BIT_MISSING:
    case BIT_TOO_MANY:
    case BIT_BEYOND:
    case OTHER_WORD:
    case POOL_TOP:
    case CAUSE_OUTSIDE:
    case WAIT_AWAITED:
    case WAIT_OTHER_MASK:
        return code == BROKEN_TABLES;
    case UNUSED_WORDS:
    case SEMAPHORE_TOP:
    case CAUSE_UNUSED:
    case CAUSE_OTHER:
    case LAST_NUMBERS:
    case WAIT_NO_FLAG:
    case WAIT_FLAGS:
    case WAIT_MESSAGE:
    case WAIT_MASK_0:
        return code != BROKEN_TABLES;
    default:
        return true;
    }
}

static void spoil_tables(struct random *r, uint32_t way, struct plant *p)
{
    switch (way) {
    case ONE_FIELD:
        spoil_field(r, p);
        break;
    case FEW_FIELDS:
        for (uint32_t k = random_between(r, 2, 5); k > 0; k--) {
            spoil_field(r, p);
        }
        break;
    case ONE_BIT:
        spoil_bit(r, p);
        break;
    case SOME_BYTES:
        spoil_stretch(r, p);
        break;
    case NEARLY_GOOD:
        spoil_slightly(r, &p->tables);
        break;
    case TWO_ROWS:
        exchange_rows(r, p);
        break;
    case BUT_SIZES:
        spoil_bytes(r, p, 0, offsetof(struct plant, tables.sizes));
        break;
    case ALL_BYTES:
        spoil_bytes(r, p, 0, sizeof *p);
        break;
    case UNUSED_WORDS:
        spoil_unused(r, &p->tables);
        break;
    default:
        spoil_word(r, way, &p->tables);
        break;
    }
}

/* What comes from outside, and half of the other damages to records, go without
   wrong words: these would refuse many tables that are odd and no more. */
void spoil(struct random *r, uint32_t way, struct plant *p)
{
    if (fields_number == 0) {
        find_fields();
    }
    if (way >= SEMAPHORE_TOP) {
        spoil_oddly(r, way, &p->tables);
        mend_words(p);
        return;
    }
    spoil_tables(r, way, p);
    if (way == NEARLY_GOOD || (way < BIT_MISSING && random_chance(r, 50))) {
        mend_words(p);
    }
}
