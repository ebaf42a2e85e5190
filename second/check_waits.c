/* Hand-worked cases: semaphores, queues and references. */
#include "check.h"

static void check_the_six_lines(void)
{
    START("the six lines", 0, 2, 1, 0, 0, 0, 0);
    DO(2, 0, 0, 0, 3, 0, 1, 0, 0, 0, 0);
    VERIFY(waits(0, QUEUED, AT_SEMAPHORE, 0) && t.thread[0].remaining == 3);
    VERIFY(call_is(0, 2, 0, 0, 3) && t.semaphore[0] == -1);
    DO(3, 1, 0, 0, 0, 0, 0, 1, 3, 0, 0);
    VERIFY(t.semaphore[0] == 0);
    DO(2, 0, 0, 0, 2, 0, 1, 0, 0, 0, 0);
    DO(1, FF, 0, 0, 0, 0, 1, 0, 0, 0, 0);
    DO(1, FF, 0, 0, 0, 0, 0, 1, 1, 0, 0);
    VERIFY(last_is(0, -1, 0) && t.semaphore[0] == 0);
    DO(3, 1, 0, 0, 0, 3, 0, 0, 0, 0, 0);
}

static void check_highest_first(void)
{
    START("the highest in priority is woken, not the longest waiter", 0,
          3, 1, 0, 0, 0, 0);
    DO(11, 0, 0, 0, 1, 0, 1, 0, 0, 0, 0);
    DO(11, 1, 0, 0, 1, 0, 2, 0, 0, 0, 0);
    DO(2, 2, 0, 0, INFINITE, 0, 255, 0, 0, 0, 0);
    VERIFY(t.thread[2].remaining == 0);
    /* Both sleepers are woken; only the running one's call goes on. */
    DO(1, FF, 0, 0, 0, 0, 0, 3, 1, 0, 0);
    VERIFY(last_is(0, -1, 0) && call_is(1, 11, 0, 0, 1));
    DO(2, 0, 0, 0, INFINITE, 0, 1, 0, 2, 0, 0);
    VERIFY(last_is(1, -1, 0));
    DO(2, 1, 0, 0, INFINITE, 0, 255, 0, 0, 0, 0);
    VERIFY(t.semaphore[0] == -3);
    DO(3, FF, 0, 0, 0, 0, 0, 1, 1, 0, 0);
    VERIFY(t.semaphore[0] == -2);
}

static void check_timeout_gives_back(void)
{
    START("a timeout gives the counter back", 0, 1, 1, 0, 0, 0, 0);
    DO(2, 0, 0, 0, 1, 0, 255, 0, 0, 0, 0);
    DO(1, FF, 0, 0, 0, 0, 0, 1, 1, 0, 0);
    VERIFY(t.semaphore[0] == 0 && last_is(0, -1, 0));
    DO(3, FF, 0, 0, 0, 0, 0, 0, 0, 0, 0);
    VERIFY(t.semaphore[0] == 1);
    /* The interrupt's step wrote no last answer. */
    VERIFY(last_is(0, -1, 0));
    DO(2, 0, 0, 0, 5, 0, 0, 0, 1, 0, 0);
    VERIFY(t.semaphore[0] == 0 && last_is(0, 0, 0));
    DO(2, 0, 0, 0, 0, 0, 0, 0, 1, -1, 0);
    VERIFY(t.semaphore[0] == 0);
}

static void check_semaphore_reset(void)
{
    START("reset", 0, 2, 2, 0, 0, 0, 0);
    DO(2, 0, 1, 0, 4, 0, 1, 0, 0, 0, 0);
    DO(2, 1, 1, 0, 4, 0, 255, 0, 0, 0, 0);
    DO(4, FF, 1, UINT32_C(2147483648), 0, 6, 255, 0, 0, 0, 0);
    DO(4, FF, 1, 5, 0, 0, 0, 3, 1, 0, 0);
    VERIFY(t.semaphore[1] == 5 && last_is(0, -2, 0));
    VERIFY(call_is(1, 2, 1, 0, 4) && t.thread[1].wake_message == -2);
    DO(4, 0, 1, 2147483647, 0, 0, 0, 0, 1, 0, 0);
    VERIFY(last_is(0, 0, 0) && t.semaphore[1] == 2147483647);
}

static void check_binary_signal(void)
{
    START("binary signal", 0, 2, 1, 0, 0, 0, 0);
    DO(5, FF, 0, 0, 0, 0, 0, 0, 0, 0, 0);
    VERIFY(t.semaphore[0] == 1);
    DO(5, 0, 0, 0, 0, 0, 0, 0, 1, 0, 0);
    VERIFY(t.semaphore[0] == 1);
    DO(2, 0, 0, 0, INFINITE, 0, 0, 0, 1, 0, 0);
    DO(2, 0, 0, 0, INFINITE, 0, 1, 0, 0, 0, 0);
    DO(5, 1, 0, 0, 0, 0, 0, 1, 3, 0, 0);
    VERIFY(t.semaphore[0] == 0);
}

static void check_queues(void)
{
    START("queues", 0, 3, 0, 1, 0, 0, 0);
    DO(7, FF, 0, 9, 0, 0, 0, 0, 0, 0, 0);
    DO(8, 0, 0, 9, 0, 0, 0, 0, 1, 0, 0);
    VERIFY(t.queue[0] == 0);
    DO(6, 0, 0, 0, 0, 0, 0, 0, 1, -1, 0);
    DO(6, 0, 0, 7, 9, 0, 1, 0, 0, 0, 0);
    VERIFY(call_is(0, 6, 0, 0, 9) && waits(0, QUEUED, AT_QUEUE, 0));
    DO(6, 1, 0, 0, INFINITE, 0, 2, 0, 0, 0, 0);
    VERIFY(t.queue[0] == -2);
    DO(7, 2, 0, MINUS(7), 0, 0, 0, 1, 5, 0, 0);
    VERIFY(t.queue[0] == -1 && last_is(0, -7, 0));
    DO(6, 0, 0, 0, 2, 0, 2, 0, 0, 0, 0);
    DO(8, 2, 0, UINT32_C(0x80000000), 0, 0, 0, 3, 5, 0, 0);
    VERIFY(t.queue[0] == 0 && last_is(0, INT32_MIN, 0));
    VERIFY(t.thread[1].state == READY && call_is(1, 6, 0, 0, INFINITE));
    /* Message 0 of a queue is an answer like any other. */
    DO(6, 0, 0, 0, 2, 0, 1, 0, 2, 0, 0);
    DO(7, 1, 0, 0, 0, 0, 0, 1, 3, 0, 0);
}

static void check_references(void)
{
    START("suspend and resume", 0, 2, 0, 0, 2, 0, 0);
    DO(10, 0, 1, 5, 0, 0, 0, 0, 1, 0, 0);
    DO(9, 0, 1, 5, 0, 0, 0, 0, 1, -1, 0);
    VERIFY(t.reference[1] == NOBODY);
    DO(9, 0, 1, 5, 2, 0, 1, 0, 0, 0, 0);
    VERIFY(t.reference[1] == 0 && waits(0, SUSPENDED, AT_REFERENCE, 1));
    VERIFY(call_is(0, 9, 1, 0, 2));
    DO(9, 1, 1, 0, 0, 7, 1, 0, 0, 0, 0);
    DO(9, 1, 1, 0, 4, 7, 1, 0, 0, 0, 0);
    DO(10, 1, 1, MINUS(2), 0, 0, 0, 1, 3, 0, 0);
    VERIFY(t.reference[1] == NOBODY && last_is(0, -2, 0));
    DO(9, 0, 0, 0, 2, 0, 1, 0, 0, 0, 0);
    DO(1, FF, 0, 0, 0, 0, 1, 0, 0, 0, 0);
    DO(1, FF, 0, 0, 0, 0, 0, 1, 1, 0, 0);
    VERIFY(t.reference[0] == NOBODY && last_is(0, -1, 0));
    DO(9, 0, 0, 0, INFINITE, 0, 1, 0, 0, 0, 0);
    VERIFY(t.thread[0].remaining == 0);
    DO(10, FF, 0, 77, 0, 0, 0, 1, 1, 0, 0);
    VERIFY(last_is(0, 77, 0));
}

void check_waits(void)
{
    check_the_six_lines();
    check_highest_first();
    check_timeout_gives_back();
    check_semaphore_reset();
    check_binary_signal();
    check_queues();
    check_references();
}
