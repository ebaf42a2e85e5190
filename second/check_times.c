/* Hand-worked cases: time and sleeping. */
#include "check.h"
#include "ticks.h"

static void check_sleep(void)
{
    START("sleep, for and until", 0, 1, 0, 0, 0, 0, 0);
    DO(11, 0, 9, 9, 0, 6, 0, 0, 0, 0, 0);
    DO(11, 0, 9, 9, INFINITE, 6, 0, 0, 0, 0, 0);
    DO(11, 0, 9, 9, LONGEST, 0, 255, 0, 0, 0, 0);
    VERIFY(waits(0, SLEEPING, NOWHERE, 0) && call_is(0, 11, 0, 0, LONGEST));
    START("sleep, for and until", 0, 1, 0, 0, 0, 0, 0);
    ticks(3);
    DO(12, 0, 0, 3, 9, 6, 0, 0, 0, 0, 0);
    DO(12, 0, 0, 2, 9, 6, 0, 0, 0, 0, 0);
    DO(12, FF, 0, 9, 9, 4, 0, 0, 0, 0, 0);
    DO(12, 0, 7, 5, 0, 0, 255, 0, 0, 0, 0);
    VERIFY(call_is(0, 12, 0, 5, 2) && t.thread[0].remaining == 2);
    DO(1, FF, 0, 0, 0, 0, 255, 0, 0, 0, 0);
    DO(1, FF, 0, 0, 0, 0, 0, 1, 1, 0, 0);
    VERIFY(last_is(0, -1, 0) && t.clock.time == 5);
    DO(12, 0, 0, 3, 0, 0, 255, 0, 0, 0, 0);
    VERIFY(call_is(0, 12, 0, 3, LONGEST));
}

static void check_wrap(void)
{
    START("time wraps", 0, 1, 0, 0, 0, 0, 0);
    t.clock.time = UINT32_C(4294967290);
    DO(12, 0, 0, 5, 0, 0, 255, 0, 0, 0, 0);
    VERIFY(t.thread[0].remaining == 11 && call_is(0, 12, 0, 5, 11));
    ticks(5);
    VERIFY(t.clock.time == UINT32_C(4294967295));
    ticks(1);
    VERIFY(t.clock.time == 0 && t.thread[0].remaining == 5);
    ticks(4);
    DO(1, FF, 0, 0, 0, 0, 0, 1, 1, 0, 0);
    VERIFY(t.clock.time == 5);
}

static void check_same_tick(void)
{
    START("timeouts against a signal", 0, 3, 1, 0, 0, 0, 0);
    DO(11, 0, 0, 0, 1, 0, 1, 0, 0, 0, 0);
    DO(2, 1, 0, 0, 2, 0, 2, 0, 0, 0, 0);
    DO(2, 2, 0, 0, 2, 0, 255, 0, 0, 0, 0);
    ticks(1);
    /* Signal first: 1 is woken with 0, only 2 is left to time out. */
    DO(3, 0, 0, 0, 0, 0, 0, 2, 1, 0, 0);
    DO(1, FF, 0, 0, 0, 0, 0, 4, 0, 0, 0);
    VERIFY(t.semaphore[0] == 0 && t.thread[1].wake_message == 0);
    VERIFY(t.thread[2].wake_message == -1);
    /* Signal after the timeout: nobody is woken, the counter is 1. */
    DO(3, 0, 0, 0, 0, 0, 0, 0, 1, 0, 0);
    VERIFY(t.semaphore[0] == 1);
    DO(11, 0, 0, 0, 3, 0, 1, 0, 2, 0, 0);
    VERIFY(last_is(1, 0, 0));
    DO(11, 1, 0, 0, 3, 0, 2, 0, 4, 0, 0);
    VERIFY(last_is(2, -1, 0));
}

static void check_conversions(void)
{
    static const uint32_t f1 = 1, f100 = 100, f1000 = 1000, zero = 0,
                          most = 1000000, more = 1000001;
    struct interval n;
    uint64_t v;

    about("conversions");
    VERIFY(to_ticks(MICROSECONDS, 1500, &f1000, &n) == 0 && n.ticks == 2);
    VERIFY(to_ticks(MILLISECONDS, 1, &f100, &n) == 0 && n.ticks == 1);
    VERIFY(to_ticks(MILLISECONDS, 0, NULL, &n) == 0 && n.ticks == 0);
    VERIFY(to_ticks(SECONDS, 4294968, &f1000, &n) == 6 && n.ticks == 0);
    VERIFY(to_ticks(SECONDS, 4294967, &f1000, &n) == 0
           && n.ticks == UINT32_C(4294967000));
    VERIFY(to_ticks(SECONDS, 429497, NULL, &n) == 6 && n.ticks == 0);
    VERIFY(to_ticks(SECONDS, 429496, NULL, &n) == 0
           && n.ticks == UINT32_C(4294960000));
    VERIFY(to_ticks(MICROSECONDS, 101, NULL, &n) == 0 && n.ticks == 2);
    VERIFY(to_ticks(SECONDS, LONGEST, &f1, &n) == 0 && n.ticks == LONGEST);
    VERIFY(to_ticks(SECONDS, INFINITE, &f1, &n) == 6 && n.ticks == 0);
    VERIFY(to_ticks(SECONDS, 0, &zero, &n) == 6);
    VERIFY(to_ticks(SECONDS, 0, &more, &n) == 6);
    n.ticks = LONGEST;
    VERIFY(from_ticks(MICROSECONDS, n, &f1, &v) == 0
           && v == UINT64_C(4294967294000000));
    VERIFY(from_ticks(SECONDS, n, &most, &v) == 0 && v == 4295);
    VERIFY(from_ticks(SECONDS, n, &more, &v) == 6 && v == 0);
    n.ticks = 10001;
    VERIFY(from_ticks(SECONDS, n, NULL, &v) == 0 && v == 2);
    VERIFY(from_ticks(SECONDS, n, &f1000, &v) == 0 && v == 11);
    n.ticks = INFINITE;
    VERIFY(from_ticks(SECONDS, n, NULL, &v) == 6 && v == 0);
}

static void check_ranges(void)
{
    struct system_time zero = { 0 }, one = { 1 }, three = { 3 }, five = { 5 },
                       late = { UINT32_C(4294967290) },
                       end = { UINT32_C(4294967295) };
    struct interval eleven = { 11 };

    about("ranges of time");
    VERIFY(time_difference(late, five).ticks == 11);
    VERIFY(time_add(late, eleven).ticks == 5);
    VERIFY(!time_in_range(three, three, three));
    VERIFY(time_in_range(zero, end, one));
    VERIFY(!time_in_range(one, end, one) && time_in_range(end, end, one));
}

void check_times(void)
{
    check_sleep();
    check_wrap();
    check_same_tick();
    check_conversions();
    check_ranges();
}
