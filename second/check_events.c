/* Hand-worked cases: event flags, signalled, awaited, taken and kept. */
#include "check.h"

static bool flags_are(uint32_t i, uint32_t pending, uint32_t awaited)
{
    return t.thread[i].pending == pending && t.thread[i].awaited == awaited;
}

static void check_flags(void)
{
    START("events", 0, 2, 0, 0, 0, 0, 0);
    DO(14, 0, 9, 0, 5, 6, 0, 0, 0, 0, 0);
    DO(14, 0, 9, 6, 0, 0, 0, 0, 1, -1, 0);
    DO(14, 0, 9, 6, INFINITE, 0, 1, 0, 0, 0, 0);
    VERIFY(waits(0, AWAITING_EVENTS, NOWHERE, 0) && flags_are(0, 0, 6));
    VERIFY(call_is(0, 14, 0, 6, INFINITE));
    DO(13, 1, 0, 1, 0, 0, 1, 0, 2, 0, 0);
    VERIFY(flags_are(0, 1, 6));
    /* Thread 0 is the higher one: it goes on in this step. */
    DO(13, 1, 0, 12, 0, 0, 0, 1, 3, 0, 0);
    VERIFY(last_is(0, 0, 4) && flags_are(0, 9, 0));
    VERIFY(call_is(0, 0, 0, 0, 0));
    DO(14, 0, 0, 1, 5, 0, 0, 0, 1, 0, 1);
    VERIFY(flags_are(0, 8, 0));
    DO(13, 0, 0, 2, 0, 0, 0, 0, 1, 0, 0);
    VERIFY(flags_are(0, 10, 0));
    DO(13, 0, 2, 2, 0, 5, 0, 0, 0, 0, 0);
    DO(13, FF, 1, 0, 0, 0, 0, 0, 0, 0, 0);
    DO(14, 0, 0, UINT32_MAX, 0, 0, 0, 0, 1, 0, 10);
}

/* Thread 1, the slow one, awaits the mask for some ticks; thread 0 runs. */
static void slow_wait(const char *name, uint32_t mask, uint32_t timeout)
{
    START(name, 0, 2, 0, 0, 0, 0, 0);
    DO(11, 0, 0, 0, 1, 0, 1, 0, 0, 0, 0);
    DO(14, 1, 0, mask, timeout, 0, 255, 0, 0, 0, 0);
    DO(1, FF, 0, 0, 0, 0, 0, 1, 1, 0, 0);
}

/* Document 02: "a slow thread awaiting flags 1 or 2 was signalled 1, then 2
   before it ran, and saw both". */
static void check_late_flags(void)
{
    slow_wait("flags that come late", 3, 9);
    DO(13, FF, 1, 1, 0, 0, 0, 2, 0, 0, 0);
    VERIFY(waits(1, READY, NOWHERE, 0) && t.thread[1].remaining == 0);
    VERIFY(t.thread[1].wake_message == 0 && last_is(1, 0, 0));
    VERIFY(call_is(1, 14, 0, 3, 9) && flags_are(1, 1, 3));
    DO(13, 0, 1, 2, 0, 0, 0, 0, 1, 0, 0);
    VERIFY(call_is(1, 14, 0, 3, 9) && flags_are(1, 3, 3));
    DO(11, 0, 0, 0, 5, 0, 1, 0, 2, 0, 0);
    VERIFY(last_is(1, 0, 3) && flags_are(1, 0, 0));
    VERIFY(call_is(1, 0, 0, 0, 0));
}

/* Only the flags in the mask are taken; the next wait finds others. */
static void check_flags_outside(void)
{
    slow_wait("flags outside the mask", 6, INFINITE);
    DO(13, 0, 1, 9, 0, 0, 0, 0, 1, 0, 0);
    VERIFY(waits(1, AWAITING_EVENTS, NOWHERE, 0) && flags_are(1, 9, 6));
    DO(13, 0, 1, 20, 0, 0, 0, 2, 1, 0, 0);
    VERIFY(flags_are(1, 29, 6));
    DO(13, 0, 1, 34, 0, 0, 0, 0, 1, 0, 0);
    VERIFY(flags_are(1, 63, 6));
    DO(11, 0, 0, 0, 5, 0, 1, 0, 2, 0, 0);
    VERIFY(last_is(1, 0, 6) && flags_are(1, 57, 0));
    DO(14, 1, 0, 40, 9, 0, 1, 0, 2, 0, 40);
    VERIFY(flags_are(1, 17, 0));
    DO(14, 1, 0, 6, 9, 0, 255, 0, 0, 0, 0);
    VERIFY(flags_are(1, 17, 6));
}

/* "A wait that timed out still answers -1 with 0, and flags that came
   afterwards stay pending." */
static void check_events_timed_out(void)
{
    slow_wait("flags for an event wait that has timed out", 3, 2);
    DO(1, FF, 0, 0, 0, 0, 0, 2, 0, 0, 0);
    VERIFY(flags_are(1, 0, 3) && t.thread[1].wake_message == -1);
    DO(13, 0, 1, 5, 0, 0, 0, 0, 1, 0, 0);
    VERIFY(flags_are(1, 5, 3) && t.thread[1].wake_message == -1);
    DO(11, 0, 0, 0, 5, 0, 1, 0, 2, 0, 0);
    VERIFY(last_is(1, -1, 0) && flags_are(1, 5, 0));
    DO(14, 1, 0, 3, 9, 0, 1, 0, 2, 0, 1);
    VERIFY(flags_are(1, 4, 0));
}

/* Who has been woken does not time out, however long it does not run. */
static void check_no_timeout_after_waking(void)
{
    slow_wait("ticks after the waking", 3, 2);
    DO(13, 0, 1, 2, 0, 0, 0, 2, 1, 0, 0);
    ticks(5);
    DO(13, FF, 1, 4, 0, 0, 0, 0, 0, 0, 0);
    DO(11, 0, 0, 0, 5, 0, 1, 0, 2, 0, 0);
    VERIFY(last_is(1, 0, 2) && flags_are(1, 4, 0));
}

/* Threads 1 and 2 are both woken. While 1 runs, 2 is signalled once more. */
static void check_one_after_the_other(void)
{
    START("two slow threads", 0, 3, 0, 0, 0, 0, 0);
    DO(11, 0, 0, 0, 1, 0, 1, 0, 0, 0, 0);
    DO(14, 1, 0, 1, 9, 0, 2, 0, 0, 0, 0);
    DO(14, 2, 0, 3, 9, 0, 255, 0, 0, 0, 0);
    ticks(1);
    DO(13, 0, 2, 1, 0, 0, 0, 4, 1, 0, 0);
    DO(13, 0, 1, 5, 0, 0, 0, 2, 1, 0, 0);
    DO(11, 0, 0, 0, 9, 0, 1, 0, 2, 0, 0);
    VERIFY(last_is(1, 0, 1) && flags_are(1, 4, 0));
    VERIFY(call_is(2, 14, 0, 3, 9) && flags_are(2, 1, 3));
    DO(13, 1, 2, 2, 0, 0, 1, 0, 2, 0, 0);
    DO(14, 1, 0, 4, 9, 0, 1, 0, 2, 0, 4);
    DO(14, 1, 0, 4, 9, 0, 2, 0, 4, 0, 0);
    VERIFY(last_is(2, 0, 3) && flags_are(2, 0, 0) && flags_are(1, 0, 4));
}

/* In tables from outside thread 1 is ready, with a wait that has not gone on;
   then thread 0 makes way. */
static void go_on(uint32_t mask, int32_t message, uint32_t pending)
{
    START("event waits from outside", 0, 2, 0, 0, 0, 0, 0);
    t.thread[1].call = (struct call){ EVENT_WAIT, 0, mask, 9 };
    t.thread[1].awaited = mask;
    t.thread[1].wake_message = message;
    t.thread[1].pending = pending;
    DO(11, 0, 0, 0, 5, 0, 1, 0, 2, 0, 0);
}

static void check_events_from_outside(void)
{
    go_on(6, 0, 9); /* woken, and none of its flags is there */
    VERIFY(last_is(1, 0, 0) && flags_are(1, 9, 0));
    go_on(6, 0, 0);
    VERIFY(last_is(1, 0, 0) && flags_are(1, 0, 0));
    go_on(UINT32_MAX, 0, UINT32_MAX);
    VERIFY(last_is(1, 0, UINT32_MAX) && flags_are(1, 0, 0));
    go_on(6, -1, 15);
    VERIFY(last_is(1, -1, 0) && flags_are(1, 15, 0));
    go_on(6, -2, 15); /* no event wakes with these */
    VERIFY(last_is(1, -2, 0) && flags_are(1, 15, 0));
    go_on(6, 7, 15);
    VERIFY(last_is(1, 7, 0) && flags_are(1, 15, 0));
    go_on(0, 0, 15); /* no wait begins with this mask */
    VERIFY(last_is(1, 0, 0) && flags_are(1, 15, 0));
    go_on(0, 7, 15);
    VERIFY(last_is(1, 7, 0) && flags_are(1, 15, 0));
}

void check_events(void)
{
    check_flags();
    check_late_flags();
    check_flags_outside();
    check_events_timed_out();
    check_no_timeout_after_waking();
    check_one_after_the_other();
    check_events_from_outside();
}
