/*
 * Field by field. The second program keeps each counter with its object, and a
 * thread's place as a tag and an index.
 */
#include "bridge.h"

#include "compare.h"
#include "saved.h"
#include "trace.h"

#include <string.h>

/* The header's numbers are the second program's, which has them from the
   paper. */
#define SAME(mine, other) \
    _Static_assert((mine) + 0LL == (other) + 0LL, #mine " is not " #other)

SAME(NIL_THREADS, MAX_THREADS);
SAME(NIL_SEMAPHORES, MAX_SEMAPHORES);
SAME(NIL_QUEUES, MAX_QUEUES);
SAME(NIL_REFERENCES, MAX_REFERENCES);
SAME(NIL_MAILBOXES, MAX_MAILBOXES);
SAME(NIL_SLOTS, MAX_SLOTS);
SAME(NIL_POOLS, MAX_POOLS);
SAME(NIL_OBJECTS, POOL_OBJECTS);
SAME(NIL_PLACES, MAX_PLACES);
SAME(NIL_SEMAPHORE_PLACE, SEMAPHORE_PLACE);
SAME(NIL_POOL_PLACE, POOL_PLACE);
SAME(NIL_QUEUE_PLACE, QUEUE_PLACE);
SAME(NIL_WRITERS_PLACE, WRITERS_PLACE);
SAME(NIL_READERS_PLACE, READERS_PLACE);
SAME(NIL_NOBODY, NOBODY);
SAME(NIL_OK, MSG_OK);
SAME(NIL_TIMEOUT, MSG_TIMEOUT);
SAME(NIL_RESET, MSG_RESET);
SAME(NIL_NOT_COUNTED, MSG_NOT_COUNTED);
SAME(NIL_IMMEDIATE, IMMEDIATE);
SAME(NIL_INFINITE, INFINITE);
SAME(NIL_LONGEST, LONGEST);
SAME(NIL_FREQUENCY, DEFAULT_FREQUENCY);
SAME(NIL_MAX_FREQUENCY, MAX_FREQUENCY);
SAME(NIL_TICK, TICK);
SAME(NIL_SEMAPHORE_WAIT, SEMAPHORE_WAIT);
SAME(NIL_SIGNAL, SIGNAL);
SAME(NIL_SEMAPHORE_RESET, SEMAPHORE_RESET);
SAME(NIL_BINARY_SIGNAL, BINARY_SIGNAL);
SAME(NIL_QUEUE_WAIT, QUEUE_WAIT);
SAME(NIL_RELEASE_FIRST, RELEASE_FIRST);
SAME(NIL_RELEASE_ALL, RELEASE_ALL);
SAME(NIL_SUSPEND, SUSPEND);
SAME(NIL_RESUME, RESUME);
SAME(NIL_SLEEP_FOR, SLEEP_FOR);
SAME(NIL_SLEEP_UNTIL, SLEEP_UNTIL);
SAME(NIL_EVENT_SIGNAL, EVENT_SIGNAL);
SAME(NIL_EVENT_WAIT, EVENT_WAIT);
SAME(NIL_POST, POST);
SAME(NIL_POST_AHEAD, POST_AHEAD);
SAME(NIL_FETCH, FETCH);
SAME(NIL_MAILBOX_RESET, MAILBOX_RESET);
SAME(NIL_MAILBOX_RESUME, MAILBOX_RESUME);
SAME(NIL_ALLOC, POOL_ALLOC);
SAME(NIL_FREE, POOL_FREE);
SAME(NIL_ADD, POOL_ADD);
SAME(NIL_ACCEPTED, ACCEPTED);
SAME(NIL_BROKEN_TABLES, BROKEN_TABLES);
SAME(NIL_BAD_KIND, BAD_KIND);
SAME(NIL_BAD_CALLER, BAD_CALLER);
SAME(NIL_BAD_CONTEXT, BAD_CONTEXT);
SAME(NIL_BAD_OBJECT, BAD_OBJECT);
SAME(NIL_BAD_VALUE, BAD_VALUE);
SAME(NIL_BAD_MOMENT, BAD_MOMENT);
SAME(NIL_BAD_VERSION, BAD_VERSION);
SAME(NIL_CUT_SHORT, CUT_SHORT);
SAME(NIL_BAD_LENGTH, BAD_LENGTH);
SAME(NIL_BAD_SIZE, BAD_SIZE);
SAME(NIL_TOO_LONG, TOO_LONG);
SAME(NIL_NO_SPACE, NO_SPACE);
SAME(NIL_READY, READY);
SAME(NIL_SLEEPING, SLEEPING);
SAME(NIL_SUSPENDED, SUSPENDED);
SAME(NIL_QUEUED, QUEUED);
SAME(NIL_AWAITING, AWAITING_EVENTS);
SAME(NIL_CAUSE_NONE, NO_CAUSE);
SAME(NIL_CAUSE_SIGNAL, BY_SIGNAL);
SAME(NIL_CAUSE_RELEASE, BY_RELEASE);
SAME(NIL_CAUSE_RESUME, BY_RESUME);
SAME(NIL_CAUSE_EVENT, BY_EVENT);
SAME(NIL_CAUSE_POST, BY_POST);
SAME(NIL_CAUSE_FETCH, BY_FETCH);
SAME(NIL_CAUSE_RESET, BY_RESET);
SAME(NIL_CAUSE_TICK, BY_TICK);
SAME(NIL_LAST_STEP, LAST_STEP);
SAME(NIL_ABSENT, ABSENT);
SAME(NIL_FREE_MARK, FREE);
SAME(NIL_OUT, OUT);
SAME(NIL_OBJECT_THREAD, OBJECT_THREAD);
SAME(NIL_OBJECT_REFERENCE, OBJECT_REFERENCE);
SAME(NIL_OBJECT_QUEUE, OBJECT_QUEUE);
SAME(NIL_OBJECT_SEMAPHORE, OBJECT_SEMAPHORE);
SAME(NIL_OBJECT_MAILBOX, OBJECT_MAILBOX);
SAME(NIL_OBJECT_POOL, OBJECT_POOL);
SAME(NIL_OBJECT_CLOCK, OBJECT_CLOCK);
SAME(NIL_OBJECT_STEPS, OBJECT_STEPS);
SAME(NIL_OBJECT_STEPS + 1, OBJECTS);
SAME(NIL_FIELDS, ALL_FIELDS);
SAME(NIL_LAYOUT, SAVED_LAYOUT);
SAME(NIL_SAVED, SAVED_BYTES);
SAME(sizeof(nil_change), sizeof(struct change));
SAME(NIL_TRACE_LIMIT, TRACE_LIMIT);
SAME(NIL_STEP_RECORD, LENGTH_BYTES + STEP_BYTES);

static void thread_to_second(const nil_thread *from, struct thread *to)
{
    to->state = from->state;
    to->place = numbered_place(from->state, from->place);
    to->remaining = from->remaining;
    to->pending = from->pending;
    to->awaited = from->awaited;
    to->wake_message = from->message;
    to->call.kind = from->call.kind;
    to->call.object = from->call.object;
    to->call.operand = from->call.operand;
    to->call.timeout = from->call.timeout;
    to->last.message = from->answer.message;
    to->last.datum = from->answer.datum;
    to->cause = from->cause;
    to->step = from->step;
}

static void thread_from_second(const struct thread *from, nil_thread *to)
{
    to->state = (uint16_t)from->state;
    to->place = (uint16_t)place_number(from->place);
    to->remaining = from->remaining;
    to->pending = from->pending;
    to->awaited = from->awaited;
    to->message = from->wake_message;
    to->call.kind = (uint16_t)from->call.kind;
    to->call.object = (uint16_t)from->call.object;
    to->call.operand = from->call.operand;
    to->call.timeout = from->call.timeout;
    to->answer.message = from->last.message;
    to->answer.datum = from->last.datum;
    to->cause = from->cause;
    to->step = from->step;
}

static void mailbox_to_second(const nil_mailbox *from, struct mailbox *to)
{
    to->read = from->read;
    to->write = from->write;
    to->count = from->count;
    to->reset = from->reset;
    memcpy(to->slot, from->messages, sizeof to->slot);
}

static void mailbox_from_second(const struct mailbox *from, nil_mailbox *to)
{
    to->read = (uint16_t)from->read;
    to->write = (uint16_t)from->write;
    to->count = (uint16_t)from->count;
    to->reset = (uint16_t)from->reset;
    memcpy(to->messages, from->slot, sizeof to->messages);
}

static void pool_to_second(const nil_pool *from, struct pool *to)
{
    to->length = from->length;
    for (uint32_t k = 0; k < POOL_OBJECTS; k++) {
        to->list[k] = from->list[k];
        to->mark[k] = from->marks[k];
    }
}

static void pool_from_second(const struct pool *from, nil_pool *to)
{
    to->length = (uint16_t)from->length;
    for (uint32_t k = 0; k < POOL_OBJECTS; k++) {
        to->list[k] = (uint8_t)from->list[k];
        to->marks[k] = (uint8_t)from->mark[k];
    }
}

static void words_to_second(const nil_words *from, struct words *to)
{
    to->ready = from->ready;
    for (uint32_t place = 0; place < NIL_PLACES; place++) {
        *word_at(to, counter_place(place)) = from->waiting[place];
    }
    to->filler = from->unused;
}

/* By value: word_at wants words that it may change. */
static void words_from_second(struct words from, nil_words *to)
{
    to->ready = (uint16_t)from.ready;
    for (uint32_t place = 0; place < NIL_PLACES; place++) {
        to->waiting[place] = (uint16_t)*word_at(&from, counter_place(place));
    }
    to->unused = (uint16_t)from.filler;
}

static struct sizes sizes_to_second(const nil_sizes *z)
{
    struct sizes s = { z->threads, z->semaphores, z->queues, z->references,
                       z->mailboxes, z->pools, { 0 } };

    for (uint32_t m = 0; m < MAX_MAILBOXES; m++) {
        s.slots[m] = z->slots[m];
    }
    return s;
}

nil_sizes nil_sizes_of(const struct sizes *z)
{
    nil_sizes s = { (uint16_t)z->threads, (uint16_t)z->semaphores,
                    (uint16_t)z->queues, (uint16_t)z->references,
                    (uint16_t)z->mailboxes, (uint16_t)z->pools, { 0 } };

    for (uint32_t m = 0; m < MAX_MAILBOXES; m++) {
        s.slots[m] = (uint16_t)z->slots[m];
    }
    return s;
}

nil_request nil_request_of(const struct step *s)
{
    return (nil_request){ s->kind, s->caller, s->object, 0, s->a, s->timeout };
}

void to_second(const nil_tables *from, const nil_clock *clock,
               struct tables *to)
{
    to->sizes = sizes_to_second(&from->sizes);
    for (uint32_t i = 0; i < MAX_THREADS; i++) {
        thread_to_second(&from->threads[i], &to->thread[i]);
    }
    for (uint32_t r = 0; r < MAX_REFERENCES; r++) {
        to->reference[r] = from->references[r];
    }
    for (uint32_t m = 0; m < MAX_MAILBOXES; m++) {
        mailbox_to_second(&from->mailboxes[m], &to->mailbox[m]);
    }
    for (uint32_t p = 0; p < MAX_POOLS; p++) {
        pool_to_second(&from->pools[p], &to->pool[p]);
    }
    for (uint32_t place = 0; place < NIL_PLACES; place++) {
        *counter_at(to, counter_place(place)) = from->counters[place];
    }
    words_to_second(&from->words, &to->words);
    to->steps = from->steps;
    to->clock.time = clock->time;
    to->clock.frequency = clock->frequency;
}

void from_second(const struct tables *from, nil_tables *to, nil_clock *clock)
{
    struct tables t = *from; /* counter_at wants tables that it may change */

    to->sizes = nil_sizes_of(&t.sizes);
    for (uint32_t i = 0; i < MAX_THREADS; i++) {
        thread_from_second(&t.thread[i], &to->threads[i]);
    }
    for (uint32_t r = 0; r < MAX_REFERENCES; r++) {
        to->references[r] = (uint8_t)t.reference[r];
    }
    for (uint32_t m = 0; m < MAX_MAILBOXES; m++) {
        mailbox_from_second(&t.mailbox[m], &to->mailboxes[m]);
    }
    for (uint32_t p = 0; p < MAX_POOLS; p++) {
        pool_from_second(&t.pool[p], &to->pools[p]);
    }
    for (uint32_t place = 0; place < NIL_PLACES; place++) {
        to->counters[place] = *counter_at(&t, counter_place(place));
    }
    words_from_second(t.words, &to->words);
    to->steps = t.steps;
    clock->time = t.clock.time;
    clock->frequency = t.clock.frequency;
}
