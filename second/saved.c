/* One walk over the fields, in a host's order, both writes and reads them. */
#include "saved.h"

#include "trace.h"

#include <string.h>

/* "Both sums modulo 65521", the second of the firsts. */
uint32_t adler32(const uint8_t *bytes, size_t length)
{
    uint32_t sum = 1, sums = 0;

    for (size_t k = 0; k < length; k++) {
        sum = (sum + bytes[k]) % 65521;
        sums = (sums + sum) % 65521;
    }
    return sums * 65536 + sum;
}

/* ---- the walk --------------------------------------------------------- */

/* Fields go over one after the other. */
struct passage {
    uint8_t *at;
    bool loads;
};

static void carry(struct passage *p, uint32_t *field, uint32_t bytes)
{
    uint32_t value = 0;

    for (uint32_t k = 0; k < bytes; k++, p->at++) {
        if (p->loads) {
            value += (uint32_t)*p->at << 8 * k;
        } else {
            *p->at = (uint8_t)(*field >> 8 * k & 255);
        }
    }
    if (p->loads) {
        *field = value;
    }
}

/* The same 32 bits, signed. */
static void carry_signed(struct passage *p, int32_t *field)
{
    carry(p, (uint32_t *)field, 4);
}

static void carry_all(struct passage *p, uint32_t *fields, uint32_t number,
                      uint32_t bytes)
{
    for (uint32_t k = 0; k < number; k++) {
        carry(p, &fields[k], bytes);
    }
}

static void carry_thread(struct passage *p, struct thread *th)
{
    carry(p, &th->state, 2);
    carry(p, &th->place.index, 2);
    carry(p, &th->remaining, 4);
    carry(p, &th->pending, 4);
    carry(p, &th->awaited, 4);
    carry_signed(p, &th->wake_message);
    carry(p, &th->call.kind, 2);
    carry(p, &th->call.object, 2);
    carry(p, &th->call.operand, 4);
    carry(p, &th->call.timeout, 4);
    carry_signed(p, &th->last.message);
    carry(p, &th->last.datum, 4);
    carry(p, &th->cause, 4);
    carry(p, &th->step, 4);
}

static void carry_words(struct passage *p, struct words *w)
{
    carry(p, &w->ready, 2);
    for (uint32_t place = 0; place < MAX_PLACES; place++) {
        carry(p, word_at(w, counter_place(place)), 2);
    }
    carry(p, &w->filler, 2);
}

static void carry_mailbox(struct passage *p, struct mailbox *box)
{
    carry(p, &box->read, 2);
    carry(p, &box->write, 2);
    carry(p, &box->count, 2);
    carry(p, &box->reset, 2);
    for (uint32_t k = 0; k < MAX_SLOTS; k++) {
        carry_signed(p, &box->slot[k]);
    }
}

static void carry_pool(struct passage *p, struct pool *pool)
{
    carry(p, &pool->length, 2);
    carry_all(p, pool->list, POOL_OBJECTS, 1);
    carry_all(p, pool->mark, POOL_OBJECTS, 1);
}

static void carry_sizes(struct passage *p, struct sizes *z)
{
    carry(p, &z->threads, 2);
    carry(p, &z->semaphores, 2);
    carry(p, &z->queues, 2);
    carry(p, &z->references, 2);
    carry(p, &z->mailboxes, 2);
    carry(p, &z->pools, 2);
    carry_all(p, z->slots, MAX_MAILBOXES, 2);
}

/* Tables whose places are numbered. */
static void carry_tables(struct passage *p, struct tables *t)
{
    for (uint32_t i = 0; i < MAX_THREADS; i++) {
        carry_thread(p, &t->thread[i]);
    }
    for (uint32_t place = 0; place < MAX_PLACES; place++) {
        carry_signed(p, counter_at(t, counter_place(place)));
    }
    carry_all(p, t->reference, MAX_REFERENCES, 1);
    carry_words(p, &t->words);
    carry(p, &t->steps, 4);
    for (uint32_t m = 0; m < MAX_MAILBOXES; m++) {
        carry_mailbox(p, &t->mailbox[m]);
    }
    for (uint32_t k = 0; k < MAX_POOLS; k++) {
        carry_pool(p, &t->pool[k]);
    }
    carry_sizes(p, &t->sizes);
    carry(p, &t->clock.time, 4);
    carry(p, &t->clock.frequency, 4);
}

/* ---- files ------------------------------------------------------------ */

static uint32_t number_at(const uint8_t *file)
{
    return (uint32_t)file[0] + ((uint32_t)file[1] << 8)
         + ((uint32_t)file[2] << 16) + ((uint32_t)file[3] << 24);
}

static uint32_t checksum_of(const uint8_t *file)
{
    return adler32(file + SAVED_HEAD, SAVED_BYTES - SAVED_HEAD);
}

uint32_t save_tables(const struct tables *t, uint8_t *file, size_t room)
{
    struct passage body = { file + SAVED_HEAD, false };
    struct passage head = { file, false };
    struct tables numbered = *t;
    uint32_t layout = SAVED_LAYOUT, checksum;

    if (room < SAVED_BYTES) {
        return NO_SPACE;
    }
    number_places(&numbered);
    carry_tables(&body, &numbered);
    checksum = checksum_of(file);
    carry(&head, &layout, 4);
    carry(&head, &checksum, 4);
    return ACCEPTED;
}

static uint32_t refusal_of_file(const uint8_t *file, size_t length)
{
    if (length < 4 || number_at(file) != SAVED_LAYOUT) {
        return BAD_VERSION;
    }
    if (length != SAVED_BYTES) {
        return length < SAVED_BYTES ? CUT_SHORT : BAD_LENGTH;
    }
    return number_at(file + 4) == checksum_of(file) ? ACCEPTED : BAD_VALUE;
}

/* The walk may write, so it goes over a copy of the file. */
uint32_t load_tables(struct tables *t, const uint8_t *file, size_t length)
{
    uint8_t bytes[SAVED_TABLES + SAVED_CLOCK];
    struct passage body = { bytes, true };
    uint32_t code = refusal_of_file(file, length);

    if (code == ACCEPTED) {
        memcpy(bytes, file + SAVED_HEAD, sizeof bytes);
        carry_tables(&body, t);
        read_places(t);
    }
    return code;
}
