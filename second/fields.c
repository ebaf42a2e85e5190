/* Every field is 32 bits wide here, so that one way leads to all of them: by
   the offset of object 0's, by rows, and by places in a row. */
#include "fields.h"

static const struct object_kind {
    const char *word;
    uint32_t rows;
    size_t row_bytes;
} KINDS[OBJECTS] = {
    { "thread", MAX_THREADS, sizeof(struct thread) },
    { "reference", MAX_REFERENCES, sizeof(uint32_t) },
    { "queue", MAX_QUEUES, sizeof(int32_t) },
    { "semaphore", MAX_SEMAPHORES, sizeof(int32_t) },
    { "mailbox", MAX_MAILBOXES, sizeof(struct mailbox) },
    { "pool", MAX_POOLS, sizeof(struct pool) },
    { "clock", 1, sizeof(struct system_clock) },
    { "steps", 1, sizeof(uint32_t) }
};

#define IN(member) offsetof(struct tables, member)

/* docs/COMPARE.md's rows, one for one. */
static const struct field FIELDS[] = {
    { OBJECT_THREAD, 0, 1, "state", false, 2, IN(thread[0].state) },
    { OBJECT_THREAD, 1, 1, "place", false, 2, IN(thread[0].place.index) },
    { OBJECT_THREAD, 2, 1, "remaining", false, 4, IN(thread[0].remaining) },
    { OBJECT_THREAD, 3, 1, "pending", false, 4, IN(thread[0].pending) },
    { OBJECT_THREAD, 4, 1, "awaited", false, 4, IN(thread[0].awaited) },
    { OBJECT_THREAD, 5, 1, "message", true, 4, IN(thread[0].wake_message) },
    { OBJECT_THREAD, 6, 1, "call.kind", false, 2, IN(thread[0].call.kind) },
    { OBJECT_THREAD, 7, 1, "call.object", false, 2,
      IN(thread[0].call.object) },
    { OBJECT_THREAD, 8, 1, "call.operand", false, 4,
      IN(thread[0].call.operand) },
    { OBJECT_THREAD, 9, 1, "call.timeout", false, 4,
      IN(thread[0].call.timeout) },
    { OBJECT_THREAD, 10, 1, "answer.message", true, 4,
      IN(thread[0].last.message) },
    { OBJECT_THREAD, 11, 1, "answer.datum", false, 4,
      IN(thread[0].last.datum) },
    { OBJECT_THREAD, 12, 1, "cause", false, 4, IN(thread[0].cause) },
    { OBJECT_THREAD, 13, 1, "step", false, 4, IN(thread[0].step) },
    { OBJECT_REFERENCE, 0, 1, "holder", false, 1, IN(reference[0]) },
    { OBJECT_QUEUE, 0, 1, "counter", true, 4, IN(queue[0]) },
    { OBJECT_SEMAPHORE, 0, 1, "counter", true, 4, IN(semaphore[0]) },
    { OBJECT_MAILBOX, 0, 1, "writers", true, 4, IN(mailbox[0].writers) },
    { OBJECT_MAILBOX, 1, 1, "readers", true, 4, IN(mailbox[0].readers) },
    { OBJECT_MAILBOX, 2, 1, "read", false, 2, IN(mailbox[0].read) },
    { OBJECT_MAILBOX, 3, 1, "write", false, 2, IN(mailbox[0].write) },
    { OBJECT_MAILBOX, 4, 1, "count", false, 2, IN(mailbox[0].count) },
    { OBJECT_MAILBOX, 5, 1, "reset", false, 2, IN(mailbox[0].reset) },
    { OBJECT_MAILBOX, 6, 16, "messages", false, 4, IN(mailbox[0].slot) },
    { OBJECT_POOL, 0, 1, "counter", true, 4, IN(pool[0].counter) },
    { OBJECT_POOL, 1, 1, "length", false, 2, IN(pool[0].length) },
    { OBJECT_POOL, 2, 32, "list", false, 1, IN(pool[0].list) },
    { OBJECT_POOL, 34, 32, "marks", false, 1, IN(pool[0].mark) },
    { OBJECT_CLOCK, 0, 1, "time", false, 4, IN(clock.time) },
    { OBJECT_CLOCK, 1, 1, "frequency", false, 4, IN(clock.frequency) },
    { OBJECT_STEPS, 0, 1, "number", false, 4, IN(steps) }
};

enum { FIELDS_NUMBER = sizeof FIELDS / sizeof FIELDS[0] };

const char *object_word(uint32_t object)
{
    return KINDS[object].word;
}

uint32_t object_rows(uint32_t object)
{
    return KINDS[object].rows;
}

uint32_t rows_in_use(const struct sizes *z, uint32_t object)
{
    switch (object) {
    case OBJECT_THREAD:
        return z->threads;
    case OBJECT_REFERENCE:
        return z->references;
    case OBJECT_QUEUE:
        return z->queues;
    case OBJECT_SEMAPHORE:
        return z->semaphores;
    case OBJECT_MAILBOX:
        return z->mailboxes;
    case OBJECT_POOL:
        return z->pools;
    default:
        return KINDS[object].rows;
    }
}

uint32_t fields_of(uint32_t object)
{
    uint32_t end = 0;

    for (uint32_t k = 0; k < FIELDS_NUMBER; k++) {
        if (FIELDS[k].object == object) {
            end = FIELDS[k].first + FIELDS[k].several;
        }
    }
    return end;
}

bool find_field(struct field_name name, struct spot *spot)
{
    if (name.object >= OBJECTS || name.number >= KINDS[name.object].rows) {
        return false;
    }
    for (uint32_t k = 0; k < FIELDS_NUMBER; k++) {
        const struct field *f = &FIELDS[k];

        if (f->object == name.object && name.field >= f->first
            && name.field - f->first < f->several) {
            *spot = (struct spot){ f, name.number, name.field - f->first };
            return true;
        }
    }
    return false;
}

/* The slot's distance from the read place, forward and round the ring, is
   below the count. */
static bool holds_message(const struct tables *t, uint32_t m, uint32_t slot)
{
    const struct mailbox *box = &t->mailbox[m];
    uint32_t slots = t->sizes.slots[m];

    return slot < slots && (slot + slots - box->read) % slots < box->count;
}

bool field_counts(const struct tables *t, const struct spot *spot)
{
    if (spot->number >= rows_in_use(&t->sizes, spot->row->object)) {
        return false;
    }
    if (spot->row->offset == IN(mailbox[0].slot)) {
        return holds_message(t, spot->number, spot->place);
    }
    if (spot->row->offset == IN(pool[0].list)) {
        return spot->place < t->pool[spot->number].length;
    }
    return true;
}

uint32_t *field_at(struct tables *t, const struct spot *spot)
{
    const struct field *f = spot->row;
    size_t row = spot->number * KINDS[f->object].row_bytes;
    void *first = (char *)t + f->offset + row;

    return (uint32_t *)first + spot->place;
}
