/*
 * The kernel model, read from document 01: tables, steps, results.
 *
 * Every value in the tables is a plain 32-bit integer, so that damaged tables
 * can be written down too: refusal 1 is a test on values, never on types.
 * There is no padding, so two tables are equal exactly if memcmp says so.
 */
#ifndef MODEL_H
#define MODEL_H

#include <stdbool.h>
#include <stdint.h>

/* "Sizes": the upper limits. The lower ones are 0, but 1 for threads and
   slots. */
enum {
    MAX_THREADS = 16,
    MAX_SEMAPHORES = 16,
    MAX_QUEUES = 8,
    MAX_REFERENCES = 8,
    MAX_MAILBOXES = 4,
    MAX_SLOTS = 16,
    MAX_POOLS = 4,
    POOL_OBJECTS = 32, /* "object numbers 0 to 31" */
    /* where threads queue: a mailbox has two sides */
    MAX_PLACES = MAX_SEMAPHORES + MAX_QUEUES + 2 * MAX_MAILBOXES + MAX_POOLS
};

/* 255 is idle among threads, an interrupt among callers, and nobody in an
   empty reference. */
enum { IDLE = 255, INTERRUPT = 255, NOBODY = 255 };

/* "OK 0, TIMEOUT -1, RESET -2." Document 02, 6/13: a plain signal that does not
   count "answers message 1 in place of 0". */
enum { MSG_OK = 0, MSG_NOT_COUNTED = 1, MSG_TIMEOUT = -1, MSG_RESET = -2 };

/* "Counters run from -2147483648 to 2147483647": the top. */
enum { COUNTER_TOP = 2147483647 };

/* "Interval 0 is immediate, 4294967295 infinite, 4294967294 the longest." */
#define IMMEDIATE UINT32_C(0)
#define INFINITE UINT32_C(4294967295)
#define LONGEST UINT32_C(4294967294)

/* "Where no frequency is given, take 10000 instead of 1000." */
#define DEFAULT_FREQUENCY UINT32_C(10000)
#define MAX_FREQUENCY UINT32_C(1000000)

enum state { READY, SLEEPING, SUSPENDED, QUEUED, AWAITING_EVENTS };

enum place_tag {
    NOWHERE,
    AT_SEMAPHORE,
    AT_QUEUE,
    AT_REFERENCE,
    AT_WRITERS, /* of a mailbox */
    AT_READERS, /* of a mailbox */
    AT_POOL
};

/* The numbers that a host has for the places with a counter, MAX_PLACES in all:
   an object's number is added to its range's first. */
enum {
    SEMAPHORE_PLACE = 0,
    POOL_PLACE = 16,
    QUEUE_PLACE = 20,
    WRITERS_PLACE = 28,
    READERS_PLACE = 32
};

enum mark { ABSENT, FREE, OUT };

/* Document 02, 7/13: "the cause of its last waking: none yet, signal, release,
   resume, event, post, fetch, reset or tick", in that order from 0 on. */
enum cause {
    NO_CAUSE,
    BY_SIGNAL,
    BY_RELEASE,
    BY_RESUME,
    BY_EVENT,
    BY_POST,
    BY_FETCH,
    BY_RESET,
    BY_TICK,
    CAUSES /* their number; no cause */
};

/* The step number stays here. */
#define LAST_STEP UINT32_C(4294967295)

enum kind {
    TICK = 1,
    SEMAPHORE_WAIT = 2,
    SIGNAL = 3,
    SEMAPHORE_RESET = 4,
    BINARY_SIGNAL = 5,
    QUEUE_WAIT = 6,
    RELEASE_FIRST = 7,
    RELEASE_ALL = 8,
    SUSPEND = 9,
    RESUME = 10,
    SLEEP_FOR = 11,
    SLEEP_UNTIL = 12,
    EVENT_SIGNAL = 13,
    EVENT_WAIT = 14,
    POST = 15,
    POST_AHEAD = 16,
    FETCH = 17,
    MAILBOX_RESET = 18,
    MAILBOX_RESUME = 19,
    POOL_ALLOC = 20,
    POOL_FREE = 21,
    POOL_ADD = 22
};

/* Refusal numbers of steps, of fresh tables and of conversions. */
enum refusal {
    ACCEPTED = 0,
    BROKEN_TABLES = 1,
    BAD_KIND = 2,
    BAD_CALLER = 3,
    BAD_CONTEXT = 4,
    BAD_OBJECT = 5,
    BAD_VALUE = 6,
    BAD_MOMENT = 7,
    BAD_SIZE = 14
};

struct sizes {
    uint32_t threads;
    uint32_t semaphores;
    uint32_t queues;
    uint32_t references;
    uint32_t mailboxes;
    uint32_t pools;
    uint32_t slots[MAX_MAILBOXES];
};

/* Where a thread waits. The index means nothing beside NOWHERE. */
struct place {
    uint32_t tag;
    uint32_t index;
};

/* An unfinished call; all 0 without one. */
struct call {
    uint32_t kind;
    uint32_t object;
    uint32_t operand;
    uint32_t timeout; /* the full one */
};

struct answer {
    int32_t message;
    uint32_t datum;
};

struct thread {
    uint32_t state;
    struct place place;
    uint32_t remaining;
    uint32_t pending;
    uint32_t awaited;
    int32_t wake_message;
    struct call call;
    struct answer last;
    uint32_t cause; /* of its last waking */
    uint32_t step;  /* the number of that step, 0 before any */
};

struct mailbox {
    uint32_t read;
    uint32_t write;
    uint32_t count;
    uint32_t reset; /* any value but 0 is the reset state */
    int32_t writers;
    int32_t readers;
    int32_t slot[MAX_SLOTS];
};

struct pool {
    int32_t counter;
    uint32_t length;
    uint32_t list[POOL_OBJECTS]; /* the top is the last used place */
    uint32_t mark[POOL_OBJECTS];
};

/* Document 02, 1/13: bit i of a word stands for thread i. One word is for the
   ready threads, and one for those that wait at each place. */
struct words {
    uint32_t ready;
    uint32_t semaphore[MAX_SEMAPHORES];
    uint32_t queue[MAX_QUEUES];
    uint32_t writers[MAX_MAILBOXES];
    uint32_t readers[MAX_MAILBOXES];
    uint32_t pool[MAX_POOLS];
    uint32_t filler; /* lies beside the words at a host's; means nothing */
};

struct system_clock {
    uint32_t time;
    uint32_t frequency;
};

struct tables {
    struct sizes sizes;
    struct thread thread[MAX_THREADS];
    int32_t semaphore[MAX_SEMAPHORES];
    int32_t queue[MAX_QUEUES];
    uint32_t reference[MAX_REFERENCES];
    struct mailbox mailbox[MAX_MAILBOXES];
    struct pool pool[MAX_POOLS];
    struct words words;
    struct system_clock clock;
    uint32_t steps; /* the step number: how many were accepted */
};

struct step {
    uint8_t kind;
    uint8_t caller;
    uint8_t object;
    uint32_t a;
    uint32_t timeout;
};

struct result {
    uint32_t code;
    uint32_t running;
    uint32_t woken;
    uint32_t finished;
    struct answer answer;
    uint32_t continued; /* not the paper's: calls continued while settling */
};

/* A call that finished: who made it, what it asked for, what it answered. */
struct finished_call {
    uint32_t caller; /* 255: an interrupt */
    uint32_t kind;
    uint32_t object;
    uint32_t operand;
    struct answer answer;
};

/* The calls that one step finished, the first to finish first. A thread
   finishes one at most; an interrupt's answered call is one too. */
struct finished_calls {
    uint32_t number;
    struct finished_call call[MAX_THREADS + 1];
};

/* tables.c */
bool sizes_in_limits(const struct sizes *sizes);
/* Without a frequency (NULL) it is DEFAULT_FREQUENCY. Refused with 14 for a
   size, then 6 for the frequency; the tables are then left alone. */
uint32_t fresh_tables(struct tables *t, const struct sizes *sizes,
                      const uint32_t *frequency);
uint32_t running_thread(const struct tables *t);

/* words.c: all asked of sizes in their limits only. */
struct places {
    uint32_t number;
    struct place at[MAX_PLACES];
};
/* Semaphores, queues, each mailbox's writers and readers, pools. */
struct places places_in_use(const struct sizes *sizes);
uint32_t *word_at(struct words *w, struct place at);
uint32_t walk_ready(const struct tables *t);
uint32_t walk_waiting(const struct tables *t, struct place at);
/* The ready word and those of the places in use, from the records alone. */
void make_words(struct tables *t);

/* places.c: the place of a counter by its number, and a thread's place by the
   number that a host keeps for it; and that number. All numbers go over and
   come back. */
struct place counter_place(uint32_t number);
struct place numbered_place(uint32_t state, uint32_t number);
uint32_t place_number(struct place at);
/* Puts a host's number in the index of each thread's place, nowhere beside it,
   and makes a place of it again: in between states and numbers may change, each
   by itself. In use or not. */
void number_places(struct tables *t);
void read_places(struct tables *t);
/* Asked for places that have a counter only: not a reference, not nowhere. */
int32_t *counter_at(struct tables *t, struct place at);

/* waits.c: where a thread waits in a call; nowhere in a sleep and for events.
   Only the kind and the object are looked at. A cause of the list by its
   word. */
struct place place_of_wait(const struct call *c);
const char *cause_name(uint32_t cause);

/* hang.c: safe on tables of any values. */
bool tables_hang_together(const struct tables *t);

/* refuse.c: the number that the step is refused with, or 0. */
uint32_t refusal_of(const struct tables *t, const struct step *s);

/* model.c */
uint32_t settling_budget(const struct tables *t);
struct result do_step(struct tables *t, const struct step *s);
/* The same step, which also tells the calls that it finished. */
struct result do_told_step(struct tables *t, const struct step *s,
                           struct finished_calls *told);

#endif
