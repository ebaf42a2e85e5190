/*
 * The proved kernel model for a host in C or C++: link libhost.a, for x86-64
 * Linux. docs/HOST.md says how, and what each call costs.
 *
 * The model keeps nothing between two calls. The host owns the tables and the
 * clock and lends them for the length of a call; so plants do not know of each
 * other, and a call may be made wherever its tables are not in use.
 *
 * Every function answers for any values behind its pointers. The host sees to
 * the pointers themselves: none is null, each is aligned as its type says and
 * leads to as much memory as it says, and no two of one call overlap.
 *
 * No struct has padding, so that all bytes of the tables are its fields.
 */
#ifndef NIL_H
#define NIL_H

#include <stddef.h>
#include <stdint.h>

/* Tables are compared, changed and saved as the bytes that they are, numbers
   with the lowest byte first. */
#if defined(__BYTE_ORDER__) && __BYTE_ORDER__ != __ORDER_LITTLE_ENDIAN__
#error "nil.h is for machines that store the lowest byte of a number first"
#endif

/* The number of this header's layout: it rises with every change of a struct.
   The archive's own is nil_layout(); NIL_LAYOUT_FITS() compares them. */
#define NIL_LAYOUT UINT32_C(3)

#ifdef __cplusplus
extern "C" {
#endif

/* ---- numbers ---------------------------------------------------------- */

/* How many rows each table has. A plant uses the first of them, as many as its
   sizes say; the others are never read and never written. */
enum {
    NIL_THREADS = 16,
    NIL_SEMAPHORES = 16,
    NIL_QUEUES = 8,
    NIL_REFERENCES = 8,
    NIL_MAILBOXES = 4,
    NIL_SLOTS = 16, /* of one mailbox; 1 at least */
    NIL_POOLS = 4,
    NIL_OBJECTS = 32 /* of one pool, numbered 0 to 31 */
};

/* Byte pipes, which stand beside the tables: how many, and the bytes of a
   buffer, 1 at least. */
enum { NIL_PIPES = 4, NIL_PIPE_BYTES = 256 };

/* No thread: idle as the running one, an interrupt as the caller, nobody in an
   empty reference. */
enum { NIL_IDLE = 255, NIL_INTERRUPT = 255, NIL_NOBODY = 255 };

/* MSG_OK, MSG_TIMEOUT and MSG_RESET of the manual. */
enum { NIL_OK = 0, NIL_TIMEOUT = -1, NIL_RESET = -2 };

/* The answer of a NIL_SIGNAL at counter 2147483647, which stays there. It is no
   error: nothing was lost but the count. */
enum { NIL_NOT_COUNTED = 1 };

/*
 * Timeouts, in ticks. The manual's TIME_IMMEDIATE is -1 and its TIME_INFINITE
 * is 0; here it is the other way round. Compiled firmware passes the manual's
 * numbers: the host translates them, by nil_timeout() below.
 */
#define NIL_IMMEDIATE UINT32_C(0)
#define NIL_INFINITE UINT32_C(4294967295)
#define NIL_LONGEST UINT32_C(4294967294)

/*
 * Ticks a second: 1 to NIL_MAX_FREQUENCY. NIL_FREQUENCY is the new boxes', for
 * a host that has no other to give. Firmware that was compiled for another
 * frequency counts its timeouts in those ticks: its host gives that one, as the
 * examples do with 1000.
 */
#define NIL_FREQUENCY UINT32_C(10000)
#define NIL_MAX_FREQUENCY UINT32_C(1000000)

/*
 * The kinds of step: the object, what `a` is, whether there is a timeout; the
 * effect; and the answer, a message and a datum, 0 and 0 where none is named.
 * Fields that a kind does not name are ignored. docs/CALLS.md has the NIL call
 * behind each. T: by a thread alone; I: by an interrupt alone; *: an interrupt
 * only with timeout 0.
 *
 * "Waits": the thread sleeps until it is woken, with timeout 0 not at all.
 * Then the answer is the message that it was woken with, or NIL_TIMEOUT.
 */
enum {
    /* I. Time goes on by 1; whose ticks run out is woken with NIL_TIMEOUT. */
    NIL_TICK = 1,
    /* T, semaphore, timeout. Takes 1 off the counter, or waits. */
    NIL_SEMAPHORE_WAIT = 2,
    /* Semaphore. Adds 1 to the counter; wakes the first waiter with 0. At
       2147483647 it leaves the counter; the answer is NIL_NOT_COUNTED. */
    NIL_SIGNAL = 3,
    /* Semaphore, a: the counter to be. Wakes all waiters with NIL_RESET. */
    NIL_SEMAPHORE_RESET = 4,
    /* Semaphore. As NIL_SIGNAL where the counter is below 1, else nothing. */
    NIL_BINARY_SIGNAL = 5,
    /* T, queue, timeout. Waits; the answer is the waker's message. */
    NIL_QUEUE_WAIT = 6,
    /* Queue, a: the message. Wakes the first waiter, if there is one, with
       it. */
    NIL_RELEASE_FIRST = 7,
    /* Queue, a: the message. Wakes all waiters with it. */
    NIL_RELEASE_ALL = 8,
    /* T, reference, timeout. Waits in the reference; the answer is the
       waker's message. */
    NIL_SUSPEND = 9,
    /* Reference, a: the message. Wakes the thread in it, if there is one. */
    NIL_RESUME = 10,
    /* T, timeout: the ticks to sleep. The answer is NIL_TIMEOUT. */
    NIL_SLEEP_FOR = 11,
    /* T, a: the system time to sleep until. The answer is NIL_TIMEOUT. */
    NIL_SLEEP_UNTIL = 12,
    /* The object is a thread, a: the flags. They become pending; a thread that
       awaits one of them is woken, and takes it when it runs. */
    NIL_EVENT_SIGNAL = 13,
    /* T, a: the mask, timeout. Takes the pending flags in the mask, or waits
       for one and then takes all that came before it runs; the datum is the
       flags taken. After a timeout it takes none. */
    NIL_EVENT_WAIT = 14,
    /* *, mailbox, a: the message, timeout. Puts it in last, or waits for room;
       NIL_RESET in reset state. */
    NIL_POST = 15,
    /* *, mailbox, a: the message, timeout. The same, and puts it in first. */
    NIL_POST_AHEAD = 16,
    /* *, mailbox, timeout. Takes the first message, or waits for one; the
       datum is the message. NIL_RESET in reset state. */
    NIL_FETCH = 17,
    /* Mailbox. Empties it, wakes all waiters with NIL_RESET, sets reset
       state. */
    NIL_MAILBOX_RESET = 18,
    /* Mailbox. Ends the reset state. */
    NIL_MAILBOX_RESUME = 19,
    /* *, pool, timeout. Takes a free object, or waits for one; the datum is
       the object. */
    NIL_ALLOC = 20,
    /* Pool, a: the object, which is out. It is free; wakes the first waiter. */
    NIL_FREE = 21,
    /* Pool, a: the object, which is absent. It is free; wakes the first
       waiter. */
    NIL_ADD = 22
};

/* Codes: 0, or the number of a refusal. */
enum {
    NIL_ACCEPTED = 0,
    NIL_BROKEN_TABLES = 1, /* they do not hang together */
    NIL_BAD_KIND = 2,
    NIL_BAD_CALLER = 3,  /* neither an interrupt nor the running thread */
    NIL_BAD_CONTEXT = 4, /* not this kind by a thread, or by an interrupt */
    NIL_BAD_OBJECT = 5,  /* not in the configuration; a pipe's buffer of a
                            length out of range; tables of other sizes */
    NIL_BAD_VALUE = 6,   /* `a`, the timeout or a frequency out of range; a
                            pipe that does not fit its buffer; a checksum */
    NIL_BAD_MOMENT = 7,  /* the object is not in the state that is needed */
    NIL_BAD_VERSION = 11, /* an empty trace, or one of another version; saved
                             tables of another layout */
    NIL_CUT_SHORT = 12,   /* a trace that ends inside a record; saved tables
                             that end too early */
    NIL_BAD_LENGTH = 13,  /* a record of a wrong length; saved tables that go
                             on */
    NIL_BAD_SIZE = 14,    /* a size out of its limits */
    NIL_TOO_LONG = 15,    /* a trace above NIL_TRACE_LIMIT bytes */
    NIL_NO_SPACE = 16     /* a buffer too short */
};

/* A thread's states. */
enum {
    NIL_READY = 0,
    NIL_SLEEPING = 1,
    NIL_SUSPENDED = 2,
    NIL_QUEUED = 3,
    NIL_AWAITING = 4 /* events */
};

/* Why a thread was last made ready. A pool's free and add are signals too. A
   thread that was woken by another's call which went on only then, as a post
   does that had waited for room, has that call's cause, whatever the step's kind
   was. */
enum {
    NIL_CAUSE_NONE = 0, /* it was not yet */
    NIL_CAUSE_SIGNAL = 1,
    NIL_CAUSE_RELEASE = 2,
    NIL_CAUSE_RESUME = 3,
    NIL_CAUSE_EVENT = 4,
    NIL_CAUSE_POST = 5,
    NIL_CAUSE_FETCH = 6,
    NIL_CAUSE_RESET = 7, /* of a semaphore or a mailbox */
    NIL_CAUSE_TICK = 8   /* its ticks ran out */
};

/* The step number of the tables stays here. */
#define NIL_LAST_STEP UINT32_C(4294967295)

/* Where threads queue: the number of an object is added to its range's first
   place. The place is the index of its counter. */
enum {
    NIL_SEMAPHORE_PLACE = 0,
    NIL_POOL_PLACE = 16,
    NIL_QUEUE_PLACE = 20,
    NIL_WRITERS_PLACE = 28, /* of a mailbox */
    NIL_READERS_PLACE = 32, /* of a mailbox */
    NIL_PLACES = 36
};

/* The mark of a pool's object. */
enum { NIL_ABSENT = 0, NIL_FREE_MARK = 1, NIL_OUT = 2 };

/* Lengths of a trace, of its head and of the record of a step, in bytes. */
enum {
    NIL_TRACE_LIMIT = 60000,
    NIL_TRACE_HEAD = 13, /* at most: 9 bytes, and one a mailbox */
    NIL_STEP_RECORD = 13
};

/* Bytes of stack that are enough for any call, whatever the tables hold; what
   a handler takes on the same stack is not counted. */
enum { NIL_STACK = 81920 };

/* What nil_change names, in the order in which a list has it. docs/COMPARE.md
   says where each field lies and when it counts. */
enum {
    NIL_OBJECT_THREAD = 0,
    NIL_OBJECT_REFERENCE = 1,
    NIL_OBJECT_QUEUE = 2,
    NIL_OBJECT_SEMAPHORE = 3,
    NIL_OBJECT_MAILBOX = 4,
    NIL_OBJECT_POOL = 5,
    NIL_OBJECT_CLOCK = 6,
    NIL_OBJECT_STEPS = 7
};

/* The fields of each object. Slots, places of a free list and marks are
   numbered on from the first one's. */
enum {
    NIL_FIELD_THREAD_STATE = 0,
    NIL_FIELD_THREAD_PLACE = 1,
    NIL_FIELD_THREAD_REMAINING = 2,
    NIL_FIELD_THREAD_PENDING = 3,
    NIL_FIELD_THREAD_AWAITED = 4,
    NIL_FIELD_THREAD_MESSAGE = 5,
    NIL_FIELD_THREAD_CALL_KIND = 6,
    NIL_FIELD_THREAD_CALL_OBJECT = 7,
    NIL_FIELD_THREAD_CALL_OPERAND = 8,
    NIL_FIELD_THREAD_CALL_TIMEOUT = 9,
    NIL_FIELD_THREAD_ANSWER_MESSAGE = 10,
    NIL_FIELD_THREAD_ANSWER_DATUM = 11,
    NIL_FIELD_THREAD_CAUSE = 12,
    NIL_FIELD_THREAD_STEP = 13,
    NIL_FIELD_REFERENCE_HOLDER = 0,
    NIL_FIELD_QUEUE_COUNTER = 0,
    NIL_FIELD_SEMAPHORE_COUNTER = 0,
    NIL_FIELD_MAILBOX_WRITERS = 0, /* their counter */
    NIL_FIELD_MAILBOX_READERS = 1,
    NIL_FIELD_MAILBOX_READ = 2,
    NIL_FIELD_MAILBOX_WRITE = 3,
    NIL_FIELD_MAILBOX_COUNT = 4,
    NIL_FIELD_MAILBOX_RESET = 5,
    NIL_FIELD_MAILBOX_MESSAGES = 6, /* of slot 0 */
    NIL_FIELD_POOL_COUNTER = 0,
    NIL_FIELD_POOL_LENGTH = 1,
    NIL_FIELD_POOL_LIST = 2,   /* of the bottom */
    NIL_FIELD_POOL_MARKS = 34, /* of object 0 */
    NIL_FIELD_CLOCK_TIME = 0,
    NIL_FIELD_CLOCK_FREQUENCY = 1,
    NIL_FIELD_STEPS_NUMBER = 0
};

/* All fields that there are: a list of as many entries always has room. */
enum { NIL_FIELDS = 611 };

/* Bytes of saved tables, with their clock. */
enum { NIL_SAVED = 1588 };

/* What nil_read found. */
enum { NIL_FOUND_NOTHING = 0, NIL_FOUND_SIZES = 1, NIL_FOUND_STEP = 2 };

/* ---- what a host keeps ------------------------------------------------ */

/* An unfinished call; all 0 without one. The timeout is the full one. */
typedef struct nil_call {
    uint16_t kind;
    uint16_t object;
    uint32_t operand;
    uint32_t timeout;
} nil_call;

/* What a call answered. */
typedef struct nil_answer {
    int32_t message;
    uint32_t datum;
} nil_answer;

typedef struct nil_thread {
    uint16_t state;
    uint16_t place;     /* queued: a counter's; suspended: a reference; else 0 */
    uint32_t remaining; /* ticks, 0 for none */
    uint32_t pending;   /* event flags */
    uint32_t awaited;   /* the mask of an unfinished event wait, else 0 */
    int32_t message;    /* with which it was last made ready */
    nil_call call;
    nil_answer answer; /* of its last finished call; 0 and 0 in a sleep */
    uint32_t cause;    /* why it was last made ready: NIL_CAUSE_.. */
    uint32_t step;     /* the number of that step, 0 before any */
} nil_thread;

/* Who is ready and who waits where: bit i of a word stands for thread i. */
typedef struct nil_words {
    uint16_t ready;
    uint16_t waiting[NIL_PLACES]; /* by place */
    uint16_t unused;              /* fills the struct; any value, kept */
} nil_words;

typedef struct nil_mailbox {
    uint16_t read;
    uint16_t write;
    uint16_t count;
    uint16_t reset; /* any value but 0 is the reset state */
    uint32_t messages[NIL_SLOTS];
} nil_mailbox;

typedef struct nil_pool {
    uint16_t length;           /* of the free list */
    uint8_t list[NIL_OBJECTS]; /* the last used place is the top */
    uint8_t marks[NIL_OBJECTS];
} nil_pool;

/* Thread 0 is the highest in priority. */
typedef struct nil_sizes {
    uint16_t threads; /* 1 to 16 */
    uint16_t semaphores;
    uint16_t queues;
    uint16_t references;
    uint16_t mailboxes;
    uint16_t pools;
    uint16_t slots[NIL_MAILBOXES];
} nil_sizes;

typedef struct nil_tables {
    nil_thread threads[NIL_THREADS];
    int32_t counters[NIL_PLACES];
    uint8_t references[NIL_REFERENCES]; /* a thread, or NIL_NOBODY */
    nil_words words;
    uint32_t steps; /* accepted since fresh tables; stays at NIL_LAST_STEP */
    nil_mailbox mailboxes[NIL_MAILBOXES];
    nil_pool pools[NIL_POOLS];
    nil_sizes sizes;
} nil_tables;

typedef struct nil_clock {
    uint32_t time;
    uint32_t frequency; /* ticks a second */
} nil_clock;

/* Where the bytes of a pipe stand in its buffer, which the host keeps beside
   it and lends anew at each call, always with the same length. */
typedef struct nil_pipe {
    uint16_t read;  /* the place of the first byte in it */
    uint16_t write; /* the place that is written next */
    uint16_t count; /* the bytes in it */
    uint16_t reset; /* any value but 0 is the reset state */
} nil_pipe;

typedef struct nil_pipes {
    nil_pipe pipes[NIL_PIPES];
    uint16_t number; /* how many of them there are, 0 to 4 */
} nil_pipes;

/* ---- what goes in and comes out --------------------------------------- */

/* One call of a thread or an interrupt, or one tick. */
typedef struct nil_request {
    uint8_t kind;
    uint8_t caller;
    uint8_t object;
    uint8_t unused; /* any value */
    uint32_t a;
    uint32_t timeout;
} nil_request;

/* The masks have bit i for thread i. Message and datum are the caller's call's,
   0 and 0 as long as it is not finished. A refusal has its code, the running
   thread (NIL_IDLE with code 1), and 0 in all else. */
typedef struct nil_result {
    uint16_t code;
    uint16_t running;
    uint16_t woken;
    uint16_t finished;
    int32_t message;
    uint32_t datum;
} nil_result;

/* A field that differs. Signed values stand as their 32 bits. */
typedef struct nil_change {
    uint32_t object; /* NIL_OBJECT_.. */
    uint32_t number; /* of the object */
    uint32_t field;  /* NIL_FIELD_.. */
    uint32_t old_value;
    uint32_t new_value;
} nil_change;

/* What stands at a place of a trace. */
typedef struct nil_read_result {
    size_t next;      /* the place after it; the same place if nothing is found */
    size_t number;    /* of the record at the place */
    nil_request step; /* where one is found, else 0 */
    nil_sizes sizes;  /* where they are found, else 0 */
    uint32_t found;
    uint32_t code; /* a refusal, or 0: nothing found with code 0 is the end */
} nil_read_result;

/* ---- functions -------------------------------------------------------- */

/* The number of the layout that the archive was built with. */
uint32_t nil_layout(void);

/* Whether archive and header belong together: a host asks when it starts. */
#define NIL_LAYOUT_FITS() (nil_layout() == NIL_LAYOUT)

/* Sets up fresh tables and a fresh clock, and returns 0; or NIL_BAD_SIZE, then
   NIL_BAD_VALUE for the frequency, with nothing written. */
uint8_t nil_fresh(nil_tables *tables, nil_clock *clock, const nil_sizes *sizes,
                  uint32_t frequency);

/* Makes one step: the tables, and at a tick the clock, are changed where they
   lie. A refused step writes the result and nothing else. */
void nil_step(nil_tables *tables, nil_clock *clock, const nil_request *request,
              nil_result *result);

/* Which rule the tables break first, for a step that was refused with 1: 0 for
   none, else nil_rule() of it is the rule's number in docs/RULES.md, and
   nil_row() the thread, place, reference, mailbox or pool concerned. */
uint32_t nil_broken(const nil_tables *tables, const nil_clock *clock);

static inline uint32_t nil_rule(uint32_t broken)
{
    return broken / 256;
}

static inline uint32_t nil_row(uint32_t broken)
{
    return broken % 256;
}

/* For a screen: how many threads are ready, the first of them (NIL_IDLE for
   none), and who waits at a place, as a word with bit i for thread i; 0 for a
   place that there is not. They read the words alone, and change nothing. */
uint32_t nil_ready_count(const nil_tables *tables);
uint32_t nil_first_ready(const nil_tables *tables);
uint16_t nil_waiting(const nil_tables *tables, uint32_t place);

/* Reads the record at a place of a trace of `length` bytes: the sizes at place
   0, a step elsewhere. The next read goes to `next`. Any place gets an answer:
   where no record begins, it is what the bytes there happen to say. The
   trace's length and version are judged at place 0 alone: NIL_TOO_LONG and
   NIL_BAD_VERSION come there and nowhere else, whatever `length` is. */
void nil_read(const uint8_t *trace, size_t length, size_t at,
              nil_read_result *result);

/* Writes a trace's head for the sizes, the place after it to `next`, and
   returns 0; or NIL_BAD_SIZE or NIL_NO_SPACE, with nothing written. */
uint8_t nil_write_sizes(uint8_t *buffer, size_t length, const nil_sizes *sizes,
                        size_t *next);

/* Writes the record of a step at a place, the place after it to `next`, and
   returns 0; or NIL_TOO_LONG or NIL_NO_SPACE, with nothing written. It writes
   that record alone, at place 0 too: the head is nil_write_sizes'. */
uint8_t nil_write_step(uint8_t *buffer, size_t length, size_t at,
                       const nil_request *request, size_t *next);

/* Time, as the manual's chTimeAddX, chTimeDiffX and chTimeIsInRangeX have it:
   time plus interval, end minus start, both wrapped; and 1 for a time from
   `start` on and before `end`, else 0. */
uint32_t nil_time_add(uint32_t time, uint32_t interval);
uint32_t nil_time_diff(uint32_t start, uint32_t end);
uint8_t nil_time_in_range(uint32_t time, uint32_t start, uint32_t end);

/* Seconds, milliseconds and microseconds in ticks, and ticks in these: the
   manual's TIME_S2I to TIME_I2US, rounded upward. Each returns 0; or
   NIL_BAD_VALUE, with 0 for the number, where the frequency is out of its
   range, the ticks come to more than NIL_LONGEST, or are NIL_INFINITE. */
uint8_t nil_s2i(uint32_t seconds, uint32_t frequency, uint32_t *ticks);
uint8_t nil_ms2i(uint32_t milliseconds, uint32_t frequency, uint32_t *ticks);
uint8_t nil_us2i(uint32_t microseconds, uint32_t frequency, uint32_t *ticks);
uint8_t nil_i2s(uint32_t ticks, uint32_t frequency, uint64_t *seconds);
uint8_t nil_i2ms(uint32_t ticks, uint32_t frequency, uint64_t *milliseconds);
uint8_t nil_i2us(uint32_t ticks, uint32_t frequency, uint64_t *microseconds);

/* Sets up so many empty pipes, and returns 0; or NIL_BAD_SIZE for a number
   above NIL_PIPES, with nothing written. */
uint8_t nil_pipe_fresh(nil_pipes *pipes, uint32_t number);

/* Puts bytes into a pipe, as many as there is room for, or takes some out, as
   many as there are, at once and without waking anybody; the number goes to
   `moved`, NIL_RESET in reset state, where nothing else happens. What passes
   the buffer's end goes on at its start, and no other byte changes. `length` is
   that of the pipe's buffer; what is offered, and the target, may be shorter,
   longer or empty.
   Each returns 0; or NIL_BAD_OBJECT for a pipe that is not there, then for a
   buffer's length outside 1 to NIL_PIPE_BYTES, then NIL_BAD_VALUE for a pipe
   whose places or count do not fit that length, with 0 moved and no byte of
   pipes, buffer or target changed. */
uint8_t nil_pipe_write(nil_pipes *pipes, uint32_t pipe, uint8_t *buffer,
                       size_t length, const uint8_t *offered,
                       size_t offered_length, int32_t *moved);
uint8_t nil_pipe_read(nil_pipes *pipes, uint32_t pipe, const uint8_t *buffer,
                      size_t length, uint8_t *target, size_t target_length,
                      int32_t *moved);

/* Empties a pipe and sets its reset state; ends the reset state, and leaves all
   else. Both refuse as a transfer does, with nothing changed. */
uint8_t nil_pipe_reset(nil_pipes *pipes, uint32_t pipe, size_t length);
uint8_t nil_pipe_resume(nil_pipes *pipes, uint32_t pipe, size_t length);

/* The archive's side of the four functions below, which are what a host calls:
   tables and clock as bytes with their length, a list as numbers, five an
   entry. Only nil_load_bytes has one more answer, NIL_NO_SPACE where tables or
   clock have less room than their structs. */
uint8_t nil_compare_bytes(const void *first, size_t first_length,
                          const void *first_clock, size_t first_clock_length,
                          const void *second, size_t second_length,
                          const void *second_clock,
                          size_t second_clock_length, void *list, size_t room,
                          size_t *entries);
size_t nil_apply_bytes(void *tables, size_t tables_length, void *clock,
                       size_t clock_length, const void *list, size_t numbers);
uint8_t nil_save_bytes(const void *tables, size_t tables_length,
                       const void *clock, size_t clock_length, uint8_t *file,
                       size_t room);
uint8_t nil_load_bytes(const uint8_t *file, size_t length, void *tables,
                       size_t tables_length, void *clock,
                       size_t clock_length);
enum { NIL_CHANGE_NUMBERS = 5 };

/* Lists what differs between two sets of tables, each with its clock: an entry
   for each field, by object, number and field; none exactly where they are the
   same in all that counts. A slot or a place of a free list that only the
   second uses is listed with 0 for the old value, one that only the first uses
   is not listed. `room` is how many entries fit. The number of entries goes to
   `entries`, and 0 is returned; or NIL_BROKEN_TABLES for the first tables or
   the second, then NIL_BAD_OBJECT where sizes or slots differ, then
   NIL_NO_SPACE, with nothing written. */
static inline uint8_t nil_compare(const nil_tables *first,
                                  const nil_clock *first_clock,
                                  const nil_tables *second,
                                  const nil_clock *second_clock,
                                  nil_change *list, size_t room,
                                  size_t *entries)
{
    if (room > NIL_FIELDS) {
        room = NIL_FIELDS; /* no list is longer */
    }
    return nil_compare_bytes(first, sizeof *first, first_clock,
                             sizeof *first_clock, second, sizeof *second,
                             second_clock, sizeof *second_clock, list,
                             room * NIL_CHANGE_NUMBERS, entries);
}

/* Stores each entry's new value in its field, in the list's order, cut to the
   field's width, whatever the tables hold; then makes the words anew. An entry
   that names no field is passed over; returns how many were. The list of two
   sets of tables, applied to the first, gives the second in all that counts. */
static inline size_t nil_apply(nil_tables *tables, nil_clock *clock,
                               const nil_change *list, size_t entries)
{
    return nil_apply_bytes(tables, sizeof *tables, clock, sizeof *clock, list,
                           entries * NIL_CHANGE_NUMBERS);
}

/* Writes tables and clock, whatever they hold, as NIL_SAVED bytes with a
   checksum, and returns 0; or NIL_NO_SPACE, with nothing written. */
static inline uint8_t nil_save(const nil_tables *tables,
                               const nil_clock *clock, uint8_t *file,
                               size_t room)
{
    return nil_save_bytes(tables, sizeof *tables, clock, sizeof *clock, file,
                          room);
}

/* Reads what nil_save has written, and returns 0; or NIL_BAD_VERSION for
   another layout, or less than its number, then NIL_CUT_SHORT or
   NIL_BAD_LENGTH, then NIL_BAD_VALUE for another checksum, with nothing
   written. Tables that were broken when they were saved come back so. */
static inline uint8_t nil_load(const uint8_t *file, size_t length,
                               nil_tables *tables, nil_clock *clock)
{
    return nil_load_bytes(file, length, tables, sizeof *tables, clock,
                          sizeof *clock);
}

/* The timeout here for a timeout of compiled firmware: its TIME_INFINITE (0)
   and TIME_IMMEDIATE (4294967295) change places, all others stay. */
static inline uint32_t nil_timeout(uint32_t firmware)
{
    return firmware == 0 ? NIL_INFINITE
         : firmware == UINT32_C(4294967295) ? NIL_IMMEDIATE
         : firmware;
}

/* ---- layout ----------------------------------------------------------- */

/* A compiler that lays a struct out in another way stops here. */
#ifdef __cplusplus
#define NIL_HOLDS(test) static_assert(test, #test)
#else
#define NIL_HOLDS(test) _Static_assert(test, #test)
#endif
#define NIL_AT(type, field, at) NIL_HOLDS(offsetof(type, field) == at)

NIL_HOLDS(sizeof(nil_call) == 12);
NIL_AT(nil_call, kind, 0);
NIL_AT(nil_call, object, 2);
NIL_AT(nil_call, operand, 4);
NIL_AT(nil_call, timeout, 8);

NIL_HOLDS(sizeof(nil_answer) == 8);
NIL_AT(nil_answer, message, 0);
NIL_AT(nil_answer, datum, 4);

NIL_HOLDS(sizeof(nil_thread) == 48);
NIL_AT(nil_thread, state, 0);
NIL_AT(nil_thread, place, 2);
NIL_AT(nil_thread, remaining, 4);
NIL_AT(nil_thread, pending, 8);
NIL_AT(nil_thread, awaited, 12);
NIL_AT(nil_thread, message, 16);
NIL_AT(nil_thread, call, 20);
NIL_AT(nil_thread, answer, 32);
NIL_AT(nil_thread, cause, 40);
NIL_AT(nil_thread, step, 44);

NIL_HOLDS(sizeof(nil_words) == 76);
NIL_AT(nil_words, ready, 0);
NIL_AT(nil_words, waiting, 2);
NIL_AT(nil_words, unused, 74);

NIL_HOLDS(sizeof(nil_mailbox) == 72);
NIL_AT(nil_mailbox, read, 0);
NIL_AT(nil_mailbox, write, 2);
NIL_AT(nil_mailbox, count, 4);
NIL_AT(nil_mailbox, reset, 6);
NIL_AT(nil_mailbox, messages, 8);

NIL_HOLDS(sizeof(nil_pool) == 66);
NIL_AT(nil_pool, length, 0);
NIL_AT(nil_pool, list, 2);
NIL_AT(nil_pool, marks, 34);

NIL_HOLDS(sizeof(nil_sizes) == 20);
NIL_AT(nil_sizes, threads, 0);
NIL_AT(nil_sizes, semaphores, 2);
NIL_AT(nil_sizes, queues, 4);
NIL_AT(nil_sizes, references, 6);
NIL_AT(nil_sizes, mailboxes, 8);
NIL_AT(nil_sizes, pools, 10);
NIL_AT(nil_sizes, slots, 12);

NIL_HOLDS(sizeof(nil_tables) == 1572);
NIL_AT(nil_tables, threads, 0);
NIL_AT(nil_tables, counters, 768);
NIL_AT(nil_tables, references, 912);
NIL_AT(nil_tables, words, 920);
NIL_AT(nil_tables, steps, 996);
NIL_AT(nil_tables, mailboxes, 1000);
NIL_AT(nil_tables, pools, 1288);
NIL_AT(nil_tables, sizes, 1552);

NIL_HOLDS(sizeof(nil_clock) == 8);
NIL_AT(nil_clock, time, 0);
NIL_AT(nil_clock, frequency, 4);

NIL_HOLDS(sizeof(nil_pipe) == 8);
NIL_AT(nil_pipe, read, 0);
NIL_AT(nil_pipe, write, 2);
NIL_AT(nil_pipe, count, 4);
NIL_AT(nil_pipe, reset, 6);

NIL_HOLDS(sizeof(nil_pipes) == 34);
NIL_AT(nil_pipes, pipes, 0);
NIL_AT(nil_pipes, number, 32);

NIL_HOLDS(sizeof(nil_request) == 12);
NIL_AT(nil_request, kind, 0);
NIL_AT(nil_request, caller, 1);
NIL_AT(nil_request, object, 2);
NIL_AT(nil_request, unused, 3);
NIL_AT(nil_request, a, 4);
NIL_AT(nil_request, timeout, 8);

NIL_HOLDS(sizeof(nil_result) == 16);
NIL_AT(nil_result, code, 0);
NIL_AT(nil_result, running, 2);
NIL_AT(nil_result, woken, 4);
NIL_AT(nil_result, finished, 6);
NIL_AT(nil_result, message, 8);
NIL_AT(nil_result, datum, 12);

NIL_HOLDS(sizeof(nil_change) == 20);
NIL_AT(nil_change, object, 0);
NIL_AT(nil_change, number, 4);
NIL_AT(nil_change, field, 8);
NIL_AT(nil_change, old_value, 12);
NIL_AT(nil_change, new_value, 16);

NIL_HOLDS(sizeof(nil_read_result) == 56);
NIL_AT(nil_read_result, next, 0);
NIL_AT(nil_read_result, number, 8);
NIL_AT(nil_read_result, step, 16);
NIL_AT(nil_read_result, sizes, 28);
NIL_AT(nil_read_result, found, 48);
NIL_AT(nil_read_result, code, 52);

NIL_HOLDS(sizeof(nil_change) == NIL_CHANGE_NUMBERS * sizeof(uint32_t));
NIL_HOLDS(NIL_SAVED == 8 + sizeof(nil_tables) + sizeof(nil_clock));

#undef NIL_AT
#undef NIL_HOLDS

#ifdef __cplusplus
}
#endif

#endif
