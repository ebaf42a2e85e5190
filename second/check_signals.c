/* Hand-worked cases: signals at the top, which do not count. */
#include "check.h"

#include <string.h>

/* Thread 0 runs, with flags pending. Thread 1 is ready, and its wait has not
   gone on; 2 waits for a message, 3 at semaphore 0. Nobody waits at semaphore
   1. */
static void plant_at(const char *name, uint32_t counter)
{
    START(name, 1, 4, 2, 0, 0, 1, 0);
    DO(11, 0, 0, 0, 1, 0, 1, 0, 0, 0, 0);
    DO(2, 1, 0, 0, 9, 0, 2, 0, 0, 0, 0);
    DO(17, 2, 0, 0, 5, 0, 3, 0, 0, 0, 0);
    DO(2, 3, 0, 0, INFINITE, 0, 255, 0, 0, 0, 0);
    ticks(1);
    DO(13, FF, 0, 5, 0, 0, 0, 0, 0, 0, 0);
    DO(4, 0, 1, counter, 0, 0, 0, 0, 1, 0, 0);
    /* With waiters a signal answers 0. */
    DO(3, 0, 0, 0, 0, 0, 0, 2, 1, 0, 0);
    DO(2, 0, 0, 0, 0, 0, 0, 0, 1, -1, 0);
    VERIFY(call_is(1, 2, 0, 0, 9) && t.semaphore[0] == -1);
}

/* The step counts, whether the signal does or not: so many more than wanted. */
static bool tables_are(struct tables want, uint32_t more)
{
    want.steps += more;
    return memcmp(&t, &want, sizeof t) == 0;
}

/* "Accepted, leaves the counter, wakes nobody and answers message 1 in place of
   0." */
static void check_top_by_thread(void)
{
    struct tables want;

    plant_at("a thread's signal at the top", 2147483647);
    want = t;
    want.thread[0].last = (struct answer){ 1, 0 };
    DO(3, 0, 1, 0, 0, 0, 0, 0, 1, 1, 0);
    VERIFY(tables_are(want, 1) && t.semaphore[1] == 2147483647);
    /* Unused fields are ignored. */
    DO(3, 0, 1, 77, 88, 0, 0, 0, 1, 1, 0);
    VERIFY(tables_are(want, 2));
    DO(3, 1, 1, 0, 0, 3, 0, 0, 0, 0, 0);
    DO(3, 0, 2, 0, 0, 5, 0, 0, 0, 0, 0);
}

/* Message 1 is the step's answer; the interrupted thread keeps its own. */
static void check_top_by_interrupt(void)
{
    struct tables want;

    plant_at("an interrupt's signal at the top", 2147483647);
    want = t;
    DO(3, FF, 1, 0, 0, 0, 0, 0, 0, 1, 0);
    VERIFY(tables_are(want, 1) && last_is(0, -1, 0));
    DO(11, 0, 0, 0, 9, 0, 1, 0, 2, 0, 0);
    DO(11, 1, 0, 0, 9, 0, 255, 0, 0, 0, 0);
    want = t;
    DO(3, FF, 1, 0, 0, 0, 255, 0, 0, 1, 0);
    VERIFY(tables_are(want, 1));
}

static void check_up_to_the_top(void)
{
    plant_at("one below the top", 2147483646);
    DO(3, 0, 1, 0, 0, 0, 0, 0, 1, 0, 0);
    VERIFY(t.semaphore[1] == 2147483647 && last_is(0, 0, 0));
    DO(3, 0, 1, 0, 0, 0, 0, 0, 1, 1, 0);
    VERIFY(t.semaphore[1] == 2147483647 && last_is(0, 1, 0));
    DO(2, 0, 1, 0, INFINITE, 0, 0, 0, 1, 0, 0);
    VERIFY(t.semaphore[1] == 2147483646 && last_is(0, 0, 0));
    DO(3, FF, 1, 0, 0, 0, 0, 0, 0, 0, 0);
    VERIFY(t.semaphore[1] == 2147483647);
    DO(3, FF, 1, 0, 0, 0, 0, 0, 0, 1, 0);
    VERIFY(t.semaphore[1] == 2147483647 && last_is(0, 0, 0));
}

/* A reset takes it down: threads wait there, and a signal wakes again. */
static void check_down_from_the_top(void)
{
    plant_at("down from the top", 2147483647);
    DO(3, FF, 1, 0, 0, 0, 0, 0, 0, 1, 0);
    DO(4, FF, 1, 0, 0, 0, 0, 0, 0, 0, 0);
    DO(2, 0, 1, 0, 7, 0, 1, 0, 2, 0, 0);
    VERIFY(t.semaphore[1] == -1 && waits(0, QUEUED, AT_SEMAPHORE, 1));
    DO(3, 1, 1, 0, 0, 0, 0, 1, 3, 0, 0);
    VERIFY(t.semaphore[1] == 0 && last_is(0, 0, 0) && last_is(1, 0, 0));
}

static void check_binary_at_the_top(void)
{
    struct tables want;

    plant_at("a binary signal at the top", 2147483647);
    want = t;
    DO(5, FF, 1, 0, 0, 0, 0, 0, 0, 0, 0);
    VERIFY(tables_are(want, 1) && last_is(0, -1, 0));
    want.thread[0].last = (struct answer){ 0, 0 };
    DO(5, 0, 1, 0, 0, 0, 0, 0, 1, 0, 0);
    VERIFY(tables_are(want, 2));
}

/* "A pool never gets there": 32 is the most that it counts. */
static void check_full_pool(void)
{
    START("a pool's signals", 0, 1, 0, 0, 0, 0, 1);
    for (uint32_t n = 0; n < 31; n++) {
        DO(22, FF, 0, n, 0, 0, 0, 0, 0, 0, 0);
    }
    DO(22, 0, 0, 31, 0, 0, 0, 0, 1, 0, 0);
    VERIFY(t.pool[0].counter == 32 && last_is(0, 0, 0));
    DO(20, 0, 0, 0, 0, 0, 0, 0, 1, 0, 31);
    DO(21, 0, 0, 31, 0, 0, 0, 0, 1, 0, 0);
    VERIFY(t.pool[0].counter == 32 && last_is(0, 0, 0));
    DO(20, FF, 0, 0, 0, 0, 0, 0, 0, 0, 31);
    DO(21, FF, 0, 31, 0, 0, 0, 0, 0, 0, 0);
    VERIFY(t.pool[0].counter == 32);
}

void check_signals(void)
{
    check_top_by_thread();
    check_top_by_interrupt();
    check_up_to_the_top();
    check_down_from_the_top();
    check_binary_at_the_top();
    check_full_pool();
}
