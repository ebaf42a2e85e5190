/* Hand-worked cases: tables that hang together, and damage that is refused. */
#include "check.h"

/* 0 runs, 1 queued at semaphore 0, 2 suspended, 3 awaits events, 4 asleep,
   5 queued for a fetch, 6 ready with an alloc woken with 0, 7 queued at pool
   0; object 1 out, 2 listed. Semaphore 1 and reference 1 are not used. */
static void rich_tables(void)
{
    START("tables that hang together", 2, 8, 2, 1, 2, 1, 1);
    DO(11, 0, 0, 0, 1, 0, 1, 0, 0, 0, 0);
    DO(2, 1, 0, 0, 8, 0, 2, 0, 0, 0, 0);
    DO(9, 2, 0, 0, INFINITE, 0, 3, 0, 0, 0, 0);
    DO(14, 3, 0, 6, 8, 0, 4, 0, 0, 0, 0);
    DO(11, 4, 0, 0, 8, 0, 5, 0, 0, 0, 0);
    DO(17, 5, 0, 0, 8, 0, 6, 0, 0, 0, 0);
    DO(20, 6, 0, 0, 8, 0, 7, 0, 0, 0, 0);
    DO(20, 7, 0, 0, 8, 0, 255, 0, 0, 0, 0);
    DO(1, FF, 0, 0, 0, 0, 0, 1, 1, 0, 0);
    DO(22, 0, 0, 2, 0, 0, 0, 64, 1, 0, 0);
    t.pool[0].mark[1] = OUT;
    VERIFY(tables_hang_together(&t));
}

/* The damage is done to good tables; the step must then be refused with 1,
   idle as running thread, and keep every byte. */
#define BREAKS(damage) \
    do { \
        t = good; \
        damage; \
        DO(1, FF, 0, 0, 0, 1, 255, 0, 0, 0, 0); \
    } while (0)

#define KEEPS(change) \
    do { \
        t = good; \
        change; \
        VERIFY(tables_hang_together(&t)); \
    } while (0)

static void check_damaged_threads(void)
{
    struct tables good;

    rich_tables();
    good = t;
    BREAKS(t.thread[0].state = 5);
    BREAKS(t.thread[0].place.tag = AT_SEMAPHORE);
    BREAKS(t.thread[0].remaining = 1);
    BREAKS(t.thread[0].awaited = 1);
    BREAKS(t.thread[0].call.object = 1);
    BREAKS(t.thread[0].call.timeout = 1);
    BREAKS(t.thread[0].call = t.thread[4].call);
    BREAKS(t.thread[1].state = READY);
    BREAKS(t.thread[1].place.index = 2);
    BREAKS(t.thread[1].place.tag = AT_QUEUE);
    BREAKS(t.thread[1].call.kind = QUEUE_WAIT);
    BREAKS(t.thread[1].call.operand = 1);
    BREAKS(t.thread[1].call.timeout = 0);
    BREAKS(t.thread[1].remaining = 0);
    BREAKS(t.thread[1].remaining = 9);
    BREAKS(t.thread[2].remaining = 1);
    BREAKS(t.thread[3].pending = 2);
    BREAKS(t.thread[3].awaited = 2);
    BREAKS(t.thread[3].call.object = 1);
    BREAKS(t.thread[4].call.kind = EVENT_WAIT);
    BREAKS(t.thread[4].place.tag = 77);
    BREAKS(t.thread[5].call.kind = POST);
    BREAKS(t.thread[6].call.object = 1);
    BREAKS(t.thread[6].call.kind = POOL_FREE);
    BREAKS(t.thread[6].wake_message = -1);
    BREAKS(t.thread[7].call.object = UINT32_MAX);
    BREAKS(t.thread[7].cause = 9);
}

static void check_damaged_objects(void)
{
    struct tables good;

    rich_tables();
    good = t;
    BREAKS(t.sizes.threads = 0);
    BREAKS(t.sizes.threads = UINT32_MAX);
    BREAKS(t.sizes.mailboxes = 5);
    BREAKS(t.sizes.slots[0] = 0);
    BREAKS(t.clock.frequency = 0);
    BREAKS(t.clock.frequency = 1000001);
    BREAKS(t.semaphore[0] = 0);
    BREAKS(t.semaphore[0] = -2);
    BREAKS(t.semaphore[1] = -1);
    BREAKS(t.thread[1].place.index = 1; t.semaphore[0] = 0;
           t.semaphore[1] = -1);
    BREAKS(t.queue[0] = 1);
    BREAKS(t.reference[0] = NOBODY);
    BREAKS(t.reference[0] = 8);
    BREAKS(t.reference[0] = 3);
    BREAKS(t.reference[1] = 2);
    BREAKS(t.reference[1] = 0);
    BREAKS(t.reference[1] = 8);
    BREAKS(t.thread[3] = t.thread[2]);
    BREAKS(t.mailbox[0].read = 1);
    BREAKS(t.mailbox[0].read = 2; t.mailbox[0].write = 2);
    BREAKS(t.mailbox[0].count = 3);
    BREAKS(t.mailbox[0].writers = -1);
    BREAKS(t.mailbox[0].readers = 0);
    BREAKS(t.pool[0].counter = 0);
    BREAKS(t.pool[0].counter = 2147483646);
    BREAKS(t.pool[0].counter = 2147483647);
    BREAKS(t.thread[7] = t.thread[0]; t.pool[0].counter = 2147483647;
           make_words(&t));
    BREAKS(t.pool[0].length = 0);
    BREAKS(t.pool[0].length = 33);
    BREAKS(t.pool[0].list[0] = 32);
    BREAKS(t.pool[0].list[0] = 1);
    BREAKS(t.pool[0].mark[2] = OUT);
    BREAKS(t.pool[0].mark[3] = FREE);
    BREAKS(t.pool[0].mark[31] = 3);
}

/* Not forbidden, so they pass; rows beyond the sizes are never looked at. */
static void check_allowed_oddities(void)
{
    struct tables good;

    rich_tables();
    good = t;
    KEEPS(t.thread[0].pending = 6; t.thread[0].wake_message = 5);
    KEEPS(t.thread[3].pending = 9);
    KEEPS(t.thread[3].awaited = 0; t.thread[3].call.operand = 0);
    KEEPS(t.thread[4].call.timeout = INFINITE; t.thread[4].remaining = 0);
    KEEPS(t.thread[4].call.kind = SLEEP_UNTIL; t.thread[4].call.operand = 9);
    KEEPS(t.thread[4].cause = BY_TICK; t.thread[5].step = UINT32_MAX);
    KEEPS(t.clock.time = UINT32_MAX; t.steps = UINT32_MAX);
    KEEPS(t.mailbox[0].reset = 200);
    KEEPS(t.mailbox[0].count = 2);
    KEEPS(t.mailbox[0].read = 1; t.mailbox[0].write = 1);
    KEEPS(t.pool[0].mark[1] = ABSENT);
    KEEPS(t.pool[0].list[1] = UINT32_MAX);
    KEEPS(t.semaphore[1] = INT32_MAX);
    KEEPS(t.thread[8].state = 99; t.semaphore[2] = -5; t.queue[1] = 4);
    KEEPS(t.reference[2] = 3; t.mailbox[1].count = 9; t.pool[1].length = 99);
    KEEPS(t.sizes.slots[1] = 99; t.mailbox[0].slot[5] = 1);
}

void check_tables(void)
{
    check_damaged_threads();
    check_damaged_objects();
    check_allowed_oddities();
}
