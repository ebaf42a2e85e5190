/* Hand-worked cases: tables compared, lists applied, entries in words, from
   document 02 (9/13) and docs/COMPARE.md. */
#include "check.h"

#include "entries.h"
#include "trace.h"

#include <string.h>

enum { TEXT = ALL_FIELDS * ENTRY_TEXT };

/* The tables before, to which those of check.h are the tables after. */
static struct tables was;
static struct change list[ALL_FIELDS];
static size_t entries;

/* ---- what is looked at ------------------------------------------------ */

static const char *listed(void)
{
    static char text[TEXT];
    size_t length = 0;

    text[0] = '\0';
    for (size_t k = 0; k < entries; k++) {
        VERIFY(entry_text(&list[k], text + length));
        strcat(text, "\n");
        length += strlen(text + length);
    }
    return text;
}

static uint32_t compare(size_t room)
{
    return compare_tables(&was, &t, list, room, &entries);
}

/* Applied to the tables before, the list gives the tables after. */
static bool leads_there(void)
{
    struct tables applied = was;

    return apply_changes(&applied, list, entries) == 0
        && same_in_what_counts(&applied, &t)
        && tables_hang_together(&applied);
}

/* The entries are these lines, and just where there are none the tables are the
   same in what counts. */
static bool gives(const char *lines)
{
    bool fine = compare(ALL_FIELDS) == ACCEPTED && leads_there();

    return fine && strcmp(listed(), lines) == 0
        && (entries == 0) == same_in_what_counts(&was, &t);
}

/* Refused, with list and number left alone. */
static bool refused(size_t room, uint32_t code)
{
    static struct change before[ALL_FIELDS];

    memset(list, 0x5a, sizeof list);
    memset(before, 0x5a, sizeof before);
    entries = 4711;
    return compare(room) == code && entries == 4711
        && memcmp(list, before, sizeof list) == 0;
}

/* ---- the list --------------------------------------------------------- */

static void check_equal(void)
{
    START("equal tables", 3, 2, 1, 0, 1, 1, 1);
    was = t;
    VERIFY(gives("") && compare(0) == ACCEPTED && entries == 0);
    /* all that does not count */
    t.thread[2].state = 77;
    t.semaphore[1] = t.queue[0] = 5;
    t.reference[1] = 9;
    t.mailbox[1].count = 3;
    t.mailbox[0].slot[0] = 8;
    t.mailbox[0].slot[15] = 8;
    t.pool[0].list[0] = 7;
    t.pool[1].length = 1;
    t.words.semaphore[1] = t.words.queue[7] = t.words.filler = 3;
    t.sizes.slots[1] = 6;
    VERIFY(gives("") && compare(0) == ACCEPTED && entries == 0);
}

/* Document 01's example: a wait, a signal. */
static void check_steps(void)
{
    START("steps", 0, 2, 1, 0, 0, 0, 0);
    was = t;
    DO(2, 0, 0, 0, 3, 0, 1, 0, 0, 0, 0);
    VERIFY(gives("thread 0 state 0 3\n"
                 "thread 0 remaining 0 3\n"
                 "thread 0 call.kind 0 2\n"
                 "thread 0 call.timeout 0 3\n"
                 "semaphore 0 counter 0 -1\n"
                 "steps 0 number 0 1\n"));
    was = t;
    DO(3, 1, 0, 0, 0, 0, 0, 1, 3, 0, 0);
    VERIFY(gives("thread 0 state 3 0\n"
                 "thread 0 remaining 3 0\n"
                 "thread 0 call.kind 2 0\n"
                 "thread 0 call.timeout 3 0\n"
                 "thread 0 cause 0 1\n"
                 "thread 0 step 0 2\n"
                 "semaphore 0 counter -1 0\n"
                 "steps 0 number 1 2\n"));
    was = t;
    ticks(2);
    VERIFY(gives("clock 0 time 0 2\nsteps 0 number 2 4\n"));
}

/* A place by the number that a host has for it. */
static void check_places(void)
{
    START("places", 1, 7, 2, 2, 2, 2, 2);
    DO(2, 0, 1, 0, 9, 0, 1, 0, 0, 0, 0);
    DO(6, 1, 1, 0, 9, 0, 2, 0, 0, 0, 0);
    DO(9, 2, 1, 0, 9, 0, 3, 0, 0, 0, 0);
    DO(17, 3, 1, 0, 9, 0, 4, 0, 0, 0, 0);
    DO(20, 4, 1, 0, 9, 0, 5, 0, 0, 0, 0);
    was = t;
    DO(15, 5, 0, 7, 0, 0, 5, 0, 32, 0, 0);
    DO(15, 5, 0, 8, 9, 0, 6, 0, 0, 0, 0);
    VERIFY(gives("thread 5 state 0 3\n"
                 "thread 5 place 0 28\n"
                 "thread 5 remaining 0 9\n"
                 "thread 5 call.kind 0 15\n"
                 "thread 5 call.operand 0 8\n"
                 "thread 5 call.timeout 0 9\n"
                 "mailbox 0 writers 0 -1\n"
                 "mailbox 0 count 0 1\n"
                 "mailbox 0 messages[0] 0 7\n"
                 "steps 0 number 5 7\n"));
    /* thread 0 at semaphore 1, 2 in reference 1: both have number 1 */
    was = t;
    t.thread[0].place = numbered_place(QUEUED, 1);
    t.thread[2].place = numbered_place(SUSPENDED, 1);
    VERIFY(gives(""));
    VERIFY(place_number(t.thread[1].place) == 21);
    VERIFY(place_number(t.thread[3].place) == 33);
    VERIFY(place_number(t.thread[4].place) == 17);
}

static void check_signs(void)
{
    START("signed and unsigned", 1, 1, 1, 0, 0, 1, 0);
    was = t;
    t.thread[0].pending = t.thread[0].step = UINT32_MAX;
    t.thread[0].wake_message = -2;
    t.thread[0].last = (struct answer){ INT32_MIN, MINUS(5) };
    t.semaphore[0] = INT32_MAX;
    t.mailbox[0].reset = 65535;
    t.mailbox[0].count = 1;
    t.mailbox[0].slot[0] = -1;
    t.clock = (struct system_clock){ UINT32_MAX, 1 };
    VERIFY(gives("thread 0 pending 0 4294967295\n"
                 "thread 0 message 0 -2\n"
                 "thread 0 answer.message 0 -2147483648\n"
                 "thread 0 answer.datum 0 4294967291\n"
                 "thread 0 step 0 4294967295\n"
                 "semaphore 0 counter 0 2147483647\n"
                 "mailbox 0 count 0 1\n"
                 "mailbox 0 reset 0 65535\n"
                 "mailbox 0 messages[0] 0 4294967295\n"
                 "clock 0 time 0 4294967295\n"
                 "clock 0 frequency 10000 1\n"));
}

/* ---- slots and list places -------------------------------------------- */

/* A mailbox of the tables gets this read place and count, and in each slot its
   number and so much more. */
static void fill(struct tables *of, uint32_t m, uint32_t read, uint32_t count,
                 int32_t more)
{
    struct mailbox *box = &of->mailbox[m];

    box->read = read;
    box->count = count;
    box->write = (read + count) % of->sizes.slots[m];
    for (uint32_t k = 0; k < MAX_SLOTS; k++) {
        box->slot[k] = (int32_t)k + more;
    }
}

static void check_slots(void)
{
    START("slots used in the second alone", 4, 1, 0, 0, 0, 1, 0);
    was = t;
    /* the very number that stands there unused, and 0 */
    fill(&was, 0, 3, 0, 0);
    fill(&t, 0, 3, 2, 0);
    VERIFY(gives("mailbox 0 write 3 1\n"
                 "mailbox 0 count 0 2\n"
                 "mailbox 0 messages[0] 0 0\n"
                 "mailbox 0 messages[3] 0 3\n"));
    fill(&was, 0, 3, 0, 70);
    VERIFY(gives("mailbox 0 write 3 1\n"
                 "mailbox 0 count 0 2\n"
                 "mailbox 0 messages[0] 0 0\n"
                 "mailbox 0 messages[3] 0 3\n"));
    about("slots used in the first alone");
    fill(&was, 0, 3, 2, 0);
    fill(&t, 0, 3, 0, 50);
    VERIFY(gives("mailbox 0 write 1 3\nmailbox 0 count 2 0\n"));
    about("slots on both sides, round the ring");
    fill(&was, 0, 2, 3, 0);
    fill(&t, 0, 3, 3, 50);
    VERIFY(gives("mailbox 0 read 2 3\n"
                 "mailbox 0 write 1 2\n"
                 "mailbox 0 messages[0] 0 50\n"
                 "mailbox 0 messages[1] 0 51\n"
                 "mailbox 0 messages[3] 3 53\n"));
}

static void check_full_boxes(void)
{
    START("full and empty mailboxes", 3, 1, 0, 0, 0, 2, 0);
    was = t;
    fill(&was, 1, 0, 0, 10);
    fill(&t, 1, 2, 3, 10);
    VERIFY(gives("mailbox 1 read 0 2\n"
                 "mailbox 1 write 0 2\n"
                 "mailbox 1 count 0 3\n"
                 "mailbox 1 messages[0] 0 10\n"
                 "mailbox 1 messages[1] 0 11\n"
                 "mailbox 1 messages[2] 0 12\n"));
    was = t;
    t.mailbox[1].slot[1] = 0;
    VERIFY(gives("mailbox 1 messages[1] 11 0\n"));
}

static void check_lists(void)
{
    START("places of a free list", 0, 2, 0, 0, 0, 0, 1);
    DO(22, 0, 0, 9, 0, 0, 0, 0, 1, 0, 0);
    was = t;
    /* object 0 at the top of the second alone */
    DO(22, 0, 0, 0, 0, 0, 0, 0, 1, 0, 0);
    VERIFY(gives("pool 0 counter 1 2\n"
                 "pool 0 length 1 2\n"
                 "pool 0 list[1] 0 0\n"
                 "pool 0 marks[0] 0 1\n"
                 "steps 0 number 1 2\n"));
    was.pool[0].list[1] = 31;
    VERIFY(gives("pool 0 counter 1 2\n"
                 "pool 0 length 1 2\n"
                 "pool 0 list[1] 0 0\n"
                 "pool 0 marks[0] 0 1\n"
                 "steps 0 number 1 2\n"));
    was = t;
    /* the place of the first alone is not listed */
    DO(20, 0, 0, 0, 0, 0, 0, 0, 1, 0, 0);
    VERIFY(gives("pool 0 counter 2 1\n"
                 "pool 0 length 2 1\n"
                 "pool 0 marks[0] 1 2\n"
                 "steps 0 number 2 3\n"));
}

/* ---- order and room --------------------------------------------------- */

static bool before(struct field_name a, struct field_name b)
{
    return a.object != b.object ? a.object < b.object
         : a.number != b.number ? a.number < b.number
         : a.field < b.field;
}

static void check_order(void)
{
    uint32_t all = 0;

    about("fields and their order");
    for (uint32_t k = 0; k < OBJECTS; k++) {
        all += object_rows(k) * fields_of(k);
    }
    VERIFY(all == ALL_FIELDS);
    START("fields and their order", 16, 16, 16, 8, 8, 4, 4);
    was = t;
    for (uint32_t i = 0; i < MAX_THREADS; i++) {
        t.thread[i].pending = t.thread[i].cause = 1;
        t.semaphore[i] = 1;
    }
    for (uint32_t k = 0; k < MAX_POOLS; k++) {
        fill(&t, k, 1, 16, 5);
        for (uint32_t n = 0; n < POOL_OBJECTS; n++) {
            t.pool[k].list[n] = n;
            t.pool[k].mark[n] = FREE;
        }
        t.pool[k].length = POOL_OBJECTS;
        t.pool[k].counter = POOL_OBJECTS;
    }
    t.clock = (struct system_clock){ 1, 1 };
    t.steps = 1;
    VERIFY(compare(ALL_FIELDS) == ACCEPTED && leads_there());
    VERIFY(entries == 32 + 16 + 4 * (2 + 1 + 16) + 4 * 66 + 2 + 1);
    for (size_t k = 1; k < entries; k++) {
        VERIFY(before(list[k - 1].name, list[k].name));
    }
}

static void check_room(void)
{
    START("room", 1, 1, 2, 0, 0, 1, 0);
    was = t;
    t.semaphore[0] = t.semaphore[1] = 4;
    t.steps = 9;
    VERIFY(refused(0, NO_SPACE) && refused(2, NO_SPACE));
    VERIFY(compare(3) == ACCEPTED && entries == 3);
    /* 5 comes before 16, and 1 before both */
    t.sizes.semaphores = 1;
    VERIFY(refused(0, BAD_OBJECT) && refused(ALL_FIELDS, BAD_OBJECT));
    t.words.ready = 0;
    VERIFY(refused(0, BROKEN_TABLES) && refused(9, BROKEN_TABLES));
}

static void check_sizes(void)
{
    uint32_t *const size[] = {
        &t.sizes.threads, &t.sizes.semaphores, &t.sizes.queues,
        &t.sizes.references, &t.sizes.mailboxes, &t.sizes.pools
    };

    for (uint32_t k = 0; k < sizeof size / sizeof size[0]; k++) {
        START("sizes that differ", 2, 2, 2, 2, 2, 2, 2);
        was = t;
        --*size[k];
        make_words(&t);
        VERIFY(refused(ALL_FIELDS, BAD_OBJECT));
    }
    START("slots that differ", 2, 2, 2, 2, 2, 2, 2);
    was = t;
    t.sizes.slots[1] = 3;
    VERIFY(refused(ALL_FIELDS, BAD_OBJECT));
    t = was;
    t.sizes.slots[2] = 3; /* no mailbox of these */
    VERIFY(gives(""));
}

static void check_broken(void)
{
    START("tables that do not hang together", 1, 2, 1, 1, 1, 1, 1);
    was = t;
    t.clock.frequency = 0;
    VERIFY(refused(ALL_FIELDS, BROKEN_TABLES));
    t = was;
    was.clock.frequency = MAX_FREQUENCY + 1;
    VERIFY(refused(ALL_FIELDS, BROKEN_TABLES));
    t = was;
    VERIFY(refused(ALL_FIELDS, BROKEN_TABLES));
}

/* ---- applying --------------------------------------------------------- */

/* One entry, made of five numbers. */
static size_t apply(uint32_t object, uint32_t number, uint32_t field,
                    uint32_t new_value)
{
    struct change c = { { object, number, field }, 12345, new_value };

    return apply_changes(&t, &c, 1);
}

static void check_no_fields(void)
{
    static const struct field_name none[] = {
        { 8, 0, 0 }, { UINT32_MAX, 0, 0 }, { 0, 16, 0 }, { 0, 0, 14 },
        { 0, UINT32_MAX, 0 }, { 0, 0, UINT32_MAX }, { 1, 8, 0 }, { 1, 0, 1 },
        { 2, 8, 0 }, { 2, 0, 1 }, { 3, 16, 0 }, { 3, 0, 1 }, { 4, 4, 0 },
        { 4, 0, 22 }, { 5, 4, 0 }, { 5, 0, 66 }, { 6, 1, 0 }, { 6, 0, 2 },
        { 7, 1, 0 }, { 7, 0, 1 }, { 256, 0, 0 }, { 65536, 0, 0 }
    };

    START("names that no field has", 1, 1, 1, 1, 1, 1, 1);
    was = t;
    for (uint32_t k = 0; k < sizeof none / sizeof none[0]; k++) {
        VERIFY(apply(none[k].object, none[k].number, none[k].field, 1) == 1);
    }
    VERIFY(memcmp(&was, &t, sizeof t) == 0);
    VERIFY(apply_changes(&t, list, 0) == 0);
    VERIFY(memcmp(&was, &t, sizeof t) == 0);
}

static void check_widths(void)
{
    START("values cut to the field's width", 1, 1, 1, 1, 1, 1, 1);
    VERIFY(apply(0, 0, 0, 65536 + 4) == 0 && t.thread[0].state == 4);
    VERIFY(apply(0, 0, 6, UINT32_MAX) == 0 && t.thread[0].call.kind == 65535);
    VERIFY(apply(0, 0, 8, UINT32_MAX) == 0
           && t.thread[0].call.operand == UINT32_MAX);
    VERIFY(apply(1, 0, 0, 256 + 3) == 0 && t.reference[0] == 3);
    VERIFY(apply(2, 0, 0, MINUS(1)) == 0 && t.queue[0] == -1);
    VERIFY(apply(4, 0, 5, 65536) == 0 && t.mailbox[0].reset == 0);
    VERIFY(apply(4, 3, 21, MINUS(6)) == 0 && t.mailbox[3].slot[15] == -6);
    VERIFY(apply(5, 0, 1, 65535) == 0 && t.pool[0].length == 65535);
    VERIFY(apply(5, 3, 33, 511) == 0 && t.pool[3].list[31] == 255);
    VERIFY(apply(5, 3, 65, 256) == 0 && t.pool[3].mark[31] == 0);
}

static void check_repeated(void)
{
    static const struct change repeated[] = {
        { { 3, 0, 0 }, 0, 5 }, { { 9, 9, 9 }, 0, 0 }, { { 3, 0, 0 }, 7, 6 },
        { { 0, 0, 1 }, 0, 17 }, { { 0, 0, 0 }, 0, 3 }
    };

    START("entries in the list's order", 1, 1, 1, 1, 1, 1, 2);
    VERIFY(apply_changes(&t, repeated, 5) == 1 && t.semaphore[0] == 6);
    /* the place came before the state that says how to read it */
    VERIFY(waits(0, QUEUED, AT_POOL, 1));
    VERIFY(t.words.ready == 0 && t.words.pool[1] == 1);
    VERIFY(apply(0, 0, 0, SUSPENDED) == 0);
    VERIFY(waits(0, SUSPENDED, AT_REFERENCE, 17) && t.words.pool[1] == 0);
    VERIFY(apply(0, 0, 0, QUEUED) == 0 && apply(0, 0, 1, 36) == 0);
    VERIFY(place_number(t.thread[0].place) == 36);
    VERIFY(apply(0, 0, 0, READY) == 0 && apply(0, 0, 1, 0) == 0);
    VERIFY(waits(0, READY, NOWHERE, 0) && t.words.ready == 1);
}

static void check_words_anew(void)
{
    START("words made anew", 1, 2, 1, 1, 1, 1, 1);
    t.words.ready = 9;
    t.words.semaphore[0] = t.words.readers[0] = t.words.pool[0] = 9;
    t.words.semaphore[1] = t.words.writers[3] = t.words.filler = 9;
    apply_changes(&t, list, 0);
    VERIFY(t.words.ready == 3 && t.words.semaphore[0] == 0);
    VERIFY(t.words.readers[0] == 0 && t.words.pool[0] == 0);
    VERIFY(t.words.semaphore[1] == 9 && t.words.writers[3] == 9
           && t.words.filler == 9);
    t.sizes = (struct sizes){ 65535, 65535, 65535, 65535, 65535, 65535,
                              { 0 } };
    VERIFY(apply(0, 15, 1, 1) == 0 && apply(0, 15, 0, QUEUED) == 0);
    VERIFY(t.words.ready == 32767 && t.words.semaphore[1] == 32768);
    VERIFY(t.words.writers[3] == 0 && t.words.filler == 9);
    t.sizes.threads = 0;
    apply_changes(&t, list, 0);
    VERIFY(t.words.ready == 0 && t.words.semaphore[1] == 0);
    VERIFY(t.sizes.pools == 65535);
}

/* ---- entries in words ------------------------------------------------- */

static bool reads(const char *line)
{
    struct change c;
    char text[ENTRY_TEXT];

    return read_entry(line, &c) && entry_text(&c, text)
        && strcmp(line, text) == 0;
}

static void check_lines(void)
{
    struct change c = { { 8, 0, 0 }, 0, 0 };
    char text[ENTRY_TEXT] = "kept";

    about("entries in words");
    VERIFY(!entry_text(&c, text) && strcmp(text, "kept") == 0);
    VERIFY(read_entry("thread 3 remaining 5 4", &c));
    VERIFY(c.name.object == 0 && c.name.number == 3 && c.name.field == 2
           && c.old_value == 5 && c.new_value == 4);
    VERIFY(read_entry("mailbox 0 messages[3] 0 42", &c));
    VERIFY(c.name.object == 4 && c.name.field == 9 && c.new_value == 42);
    VERIFY(read_entry("pool 3 marks[31] 0 2", &c) && c.name.field == 65);
    VERIFY(read_entry("queue 7 counter -1 -2147483648", &c));
    VERIFY(c.old_value == UINT32_MAX && c.new_value == 2147483648);
    VERIFY(reads("thread 15 answer.message 2147483647 -2147483648"));
    VERIFY(reads("steps 0 number 17 18") && reads("clock 0 time 7 8"));
}

static void check_no_lines(void)
{
    static const char *const none[] = {
        "", "thread", "thread 3 remaining 5", "thread 3 remaining 5 4 3",
        "thread 3 remaining 5 4 ", " thread 3 remaining 5 4",
        "thread  3 remaining 5 4", "thread\t3 remaining 5 4",
        "thread 3 remaining 5 4\n", "Thread 3 remaining 5 4",
        "threads 3 remaining 5 4", "thread 3 remainder 5 4",
        "thread 16 remaining 5 4", "thread -1 remaining 5 4",
        "thread 03 remaining 5 4", "thread +3 remaining 5 4",
        "thread 4294967299 remaining 5 4", "thread x remaining 5 4",
        "thread 3 remaining 5 4x", "thread 3 remaining -1 4",
        "thread 3 remaining 5 4294967296", "thread 3 remaining 5 0x4",
        "thread 3 remaining 5 99999999999999999999",
        "thread 3 message 2147483648 0", "thread 3 message -2147483649 0",
        "thread 3 message -0 0", "mailbox 0 messages 0 42",
        "mailbox 0 messages[16] 0 42", "mailbox 0 messages[03] 0 42",
        "mailbox 0 messages[3 0 42", "pool 0 list 0 1", "clock 1 time 7 8",
        ("thread 3 remaining 5 0000000000000000000000000000000000000"
         "0000000000000000000000000000000000000000000000000000000000")
    };
    struct change c = { { 1, 2, 3 }, 4, 5 };

    about("lines that are no entries");
    for (uint32_t k = 0; k < sizeof none / sizeof none[0]; k++) {
        VERIFY(!read_entry(none[k], &c));
    }
    VERIFY(c.name.object == 1 && c.new_value == 5);
}

void check_compare(void)
{
    check_equal();
    check_steps();
    check_places();
    check_signs();
    check_slots();
    check_full_boxes();
    check_lists();
    check_order();
    check_room();
    check_sizes();
    check_broken();
    check_no_fields();
    check_widths();
    check_repeated();
    check_words_anew();
    check_lines();
    check_no_lines();
}
