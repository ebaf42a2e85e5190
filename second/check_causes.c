/* Hand-worked cases: why a thread woke, and in which step. */
#include "broken.h"
#include "check.h"

#include <string.h>

static bool woke(uint32_t i, uint32_t cause, uint32_t step)
{
    return t.thread[i].cause == cause && t.thread[i].step == step;
}

static void check_fresh_causes(void)
{
    memset(&t, 0xee, sizeof t);
    START("no cause yet", 1, 3, 1, 1, 1, 1, 1);
    VERIFY(t.steps == 0);
    for (uint32_t i = 0; i < MAX_THREADS; i++) {
        VERIFY(woke(i, 0, 0));
    }
}

static void check_signal(void)
{
    START("woken by a signal", 0, 3, 1, 0, 0, 0, 0);
    DO(2, 0, 0, 0, INFINITE, 0, 1, 0, 0, 0, 0);
    DO(2, 1, 0, 0, 5, 0, 2, 0, 0, 0, 0);
    VERIFY(t.steps == 2 && woke(0, 0, 0) && woke(1, 0, 0));
    DO(3, 2, 0, 0, 0, 0, 0, 1, 5, 0, 0);
    VERIFY(t.steps == 3 && woke(0, 1, 3) && woke(1, 0, 0) && woke(2, 0, 0));
    DO(5, FF, 0, 0, 0, 0, 0, 2, 0, 0, 0);
    VERIFY(t.steps == 4 && woke(0, 1, 3) && woke(1, 1, 4));
    /* Thread 1's call ends here, and thread 0 sleeps: both keep it. */
    DO(11, 0, 0, 0, 9, 0, 1, 0, 2, 0, 0);
    VERIFY(t.steps == 5 && woke(0, 1, 3) && woke(1, 1, 4));
    /* A signal that wakes nobody is a step as well. */
    DO(3, 1, 0, 0, 0, 0, 1, 0, 2, 0, 0);
    VERIFY(t.steps == 6 && woke(0, 1, 3) && woke(1, 1, 4));
}

/* "A pool's free and add count as signal." */
static void check_pool(void)
{
    START("woken by a pool's add and free", 0, 2, 0, 0, 0, 0, 1);
    DO(20, 0, 0, 0, INFINITE, 0, 1, 0, 0, 0, 0);
    DO(22, 1, 0, 7, 0, 0, 0, 1, 3, 0, 0);
    VERIFY(woke(0, 1, 2) && woke(1, 0, 0));
    DO(20, 0, 0, 0, INFINITE, 0, 1, 0, 0, 0, 0);
    DO(21, FF, 0, 7, 0, 0, 0, 1, 1, 0, 0);
    VERIFY(woke(0, 1, 4) && last_is(0, 0, 7));
}

/* The message is the waker's, -1 and -2 too: the cause is not a tick then. */
static void check_release_and_resume(void)
{
    START("woken by a release, by a resume", 0, 3, 0, 1, 1, 0, 0);
    DO(6, 0, 0, 0, 9, 0, 1, 0, 0, 0, 0);
    DO(6, 1, 0, 0, 9, 0, 2, 0, 0, 0, 0);
    DO(7, 2, 0, 5, 0, 0, 0, 1, 5, 0, 0);
    VERIFY(woke(0, 2, 3) && woke(1, 0, 0) && last_is(0, 5, 0));
    DO(6, 0, 0, 0, 9, 0, 2, 0, 0, 0, 0);
    DO(8, FF, 0, MINUS(1), 0, 0, 0, 3, 1, 0, 0);
    VERIFY(woke(0, 2, 5) && woke(1, 2, 5) && last_is(0, -1, 0));
    DO(9, 0, 0, 0, 4, 0, 1, 0, 2, 0, 0);
    DO(10, 1, 0, MINUS(2), 0, 0, 0, 1, 3, 0, 0);
    VERIFY(woke(0, 3, 7) && woke(1, 2, 5) && last_is(0, -2, 0));
    /* An empty reference, an empty queue: nobody is woken. */
    DO(10, FF, 0, 1, 0, 0, 0, 0, 0, 0, 0);
    DO(8, FF, 0, 1, 0, 0, 0, 0, 0, 0, 0);
    VERIFY(t.steps == 9 && woke(0, 3, 7) && woke(1, 2, 5) && woke(2, 0, 0));
}

static void check_event(void)
{
    START("woken by an event", 0, 2, 0, 0, 0, 0, 0);
    DO(14, 0, 0, 6, 9, 0, 1, 0, 0, 0, 0);
    DO(13, 1, 0, 1, 0, 0, 1, 0, 2, 0, 0);
    VERIFY(t.steps == 2 && woke(0, 0, 0));
    DO(13, 1, 0, 2, 0, 0, 0, 1, 3, 0, 0);
    VERIFY(woke(0, 4, 3) && last_is(0, 0, 2));
    /* A flag that comes late wakes nobody, after a waking by flags or by a
       tick. */
    START("woken before the event", 0, 2, 0, 0, 0, 0, 0);
    DO(11, 0, 0, 0, 1, 0, 1, 0, 0, 0, 0);
    DO(14, 1, 0, 3, INFINITE, 0, 255, 0, 0, 0, 0);
    DO(1, FF, 0, 0, 0, 0, 0, 1, 1, 0, 0);
    DO(13, 0, 1, 1, 0, 0, 0, 2, 1, 0, 0);
    DO(13, 0, 1, 2, 0, 0, 0, 0, 1, 0, 0);
    VERIFY(woke(1, 4, 4));
    DO(11, 0, 0, 0, 9, 0, 1, 0, 2, 0, 0);
    VERIFY(woke(0, 8, 3) && woke(1, 4, 4) && last_is(1, 0, 3));
    DO(14, 1, 0, 3, 9, 0, 255, 0, 0, 0, 0);
    ticks(8);
    DO(1, FF, 0, 0, 0, 0, 0, 3, 1, 0, 0);
    DO(13, 0, 1, 1, 0, 0, 0, 0, 1, 0, 0);
    VERIFY(t.steps == 17 && woke(0, 8, 16) && woke(1, 8, 16));
}

static void check_post_and_fetch(void)
{
    START("woken by a post, by a fetch", 1, 2, 0, 0, 0, 1, 0);
    DO(17, 0, 0, 0, 9, 0, 1, 0, 0, 0, 0);
    DO(15, 1, 0, 5, 0, 0, 0, 1, 3, 0, 0);
    VERIFY(woke(0, 5, 2));
    DO(17, 0, 0, 0, 9, 0, 1, 0, 0, 0, 0);
    DO(16, FF, 0, 6, 0, 0, 0, 1, 1, 0, 0);
    VERIFY(woke(0, 5, 4));
    DO(15, 0, 0, 7, 0, 0, 0, 0, 1, 0, 0);
    DO(15, 0, 0, 8, 9, 0, 1, 0, 0, 0, 0);
    VERIFY(woke(0, 5, 4));
    DO(17, 1, 0, 0, 0, 0, 0, 1, 3, 0, 7);
    VERIFY(t.steps == 7 && woke(0, 6, 7) && woke(1, 0, 0));
}

static void check_reset(void)
{
    START("woken by a reset", 1, 2, 1, 0, 0, 1, 0);
    DO(2, 0, 0, 0, 9, 0, 1, 0, 0, 0, 0);
    DO(4, 1, 0, 0, 0, 0, 0, 1, 3, 0, 0);
    VERIFY(woke(0, 7, 2) && last_is(0, -2, 0));
    DO(17, 0, 0, 0, 9, 0, 1, 0, 0, 0, 0);
    DO(18, FF, 0, 0, 0, 0, 0, 1, 1, 0, 0);
    VERIFY(woke(0, 7, 4) && last_is(0, -2, 0));
    DO(19, 0, 0, 0, 0, 0, 0, 0, 1, 0, 0);
    DO(15, 0, 0, 1, 0, 0, 0, 0, 1, 0, 0);
    DO(16, 0, 0, 2, 9, 0, 1, 0, 0, 0, 0);
    VERIFY(woke(0, 7, 4));
    DO(18, 1, 0, 0, 0, 0, 0, 1, 3, 0, 0);
    VERIFY(woke(0, 7, 8) && woke(1, 0, 0));
}

/* A timeout is the last tick's, wherever the thread waited. */
static void check_tick(void)
{
    START("woken by the last tick", 1, 8, 1, 1, 1, 1, 1);
    DO(2, 0, 0, 0, 1, 0, 1, 0, 0, 0, 0);
    DO(6, 1, 0, 0, 1, 0, 2, 0, 0, 0, 0);
    DO(9, 2, 0, 0, 1, 0, 3, 0, 0, 0, 0);
    DO(14, 3, 0, 1, 1, 0, 4, 0, 0, 0, 0);
    DO(11, 4, 0, 0, 1, 0, 5, 0, 0, 0, 0);
    DO(17, 5, 0, 0, 1, 0, 6, 0, 0, 0, 0);
    DO(20, 6, 0, 0, 2, 0, 7, 0, 0, 0, 0);
    DO(1, FF, 0, 0, 0, 0, 0, 63, 1, 0, 0);
    for (uint32_t i = 0; i < 6; i++) {
        VERIFY(woke(i, 8, 8) && t.thread[i].wake_message == -1);
    }
    VERIFY(woke(6, 0, 0) && woke(7, 0, 0));
    DO(1, FF, 0, 0, 0, 0, 0, 64, 0, 0, 0);
    VERIFY(woke(5, 8, 8) && woke(6, 8, 9) && woke(7, 0, 0));
    START("writers, and a sleep until", 1, 3, 0, 0, 0, 1, 0);
    DO(15, 0, 0, 1, 0, 0, 0, 0, 1, 0, 0);
    DO(15, 0, 0, 2, 1, 0, 1, 0, 0, 0, 0);
    DO(16, 1, 0, 3, 1, 0, 2, 0, 0, 0, 0);
    DO(12, 2, 0, 1, 0, 0, 255, 0, 0, 0, 0);
    DO(1, FF, 0, 0, 0, 0, 0, 7, 1, 0, 0);
    VERIFY(woke(0, 8, 5) && woke(1, 8, 5) && woke(2, 8, 5));
}

/* The step fetches, and sleeps; then thread 1's post goes on and wakes its
   caller: by a post. Thread 1 itself was woken by a fetch, in a step before. */
static void check_continued_post(void)
{
    START("woken by a continued post", 1, 2, 0, 0, 0, 1, 0);
    DO(15, 0, 0, 1, 0, 0, 0, 0, 1, 0, 0);
    DO(11, 0, 0, 0, 1, 0, 1, 0, 0, 0, 0);
    DO(15, 1, 0, 2, INFINITE, 0, 255, 0, 0, 0, 0);
    DO(1, FF, 0, 0, 0, 0, 0, 1, 1, 0, 0);
    DO(17, 0, 0, 0, 0, 0, 0, 2, 1, 0, 1);
    VERIFY(woke(0, 8, 4) && woke(1, 6, 5));
    DO(17, 0, 0, 0, 9, 0, 0, 1, 3, 0, 2);
    VERIFY(woke(0, 5, 6) && woke(1, 6, 5));
}

/* The same with a step that posts, and a fetch that goes on. */
static void check_continued_fetch(void)
{
    START("woken by a continued fetch", 1, 2, 0, 0, 0, 1, 0);
    DO(11, 0, 0, 0, 1, 0, 1, 0, 0, 0, 0);
    DO(17, 1, 0, 0, INFINITE, 0, 255, 0, 0, 0, 0);
    DO(1, FF, 0, 0, 0, 0, 0, 1, 1, 0, 0);
    DO(15, 0, 0, 1, 0, 0, 0, 2, 1, 0, 0);
    VERIFY(woke(0, 8, 3) && woke(1, 5, 4));
    DO(16, 0, 0, 2, 9, 0, 0, 1, 3, 0, 0);
    VERIFY(woke(0, 6, 5) && woke(1, 5, 4) && box_is(0, 0, 0, 1));
}

/* A sleep wakes nobody; but the calls that go on after it do. Threads 0 and 2
   are at the mailbox, and thread 1 keeps 2 from running. */
static void check_continued_in_a_sleep(void)
{
    START("woken in a step that sleeps", 1, 3, 0, 0, 0, 1, 0);
    DO(11, 0, 0, 0, 1, 0, 1, 0, 0, 0, 0);
    DO(11, 1, 0, 0, 1, 0, 2, 0, 0, 0, 0);
    DO(17, 2, 0, 0, INFINITE, 0, 255, 0, 0, 0, 0);
    DO(1, FF, 0, 0, 0, 0, 0, 3, 1, 0, 0);
    DO(15, 0, 0, 1, 0, 0, 0, 4, 1, 0, 0);
    DO(15, 0, 0, 2, INFINITE, 0, 1, 0, 2, 0, 0);
    VERIFY(woke(0, 8, 4) && woke(1, 8, 4) && woke(2, 5, 5));
    DO(11, 1, 0, 0, 9, 0, 0, 1, 5, 0, 0);
    VERIFY(woke(0, 6, 7) && woke(1, 8, 4) && woke(2, 5, 5));
    START("the same by a continued post", 1, 3, 0, 0, 0, 1, 0);
    DO(15, 0, 0, 1, 0, 0, 0, 0, 1, 0, 0);
    DO(11, 0, 0, 0, 1, 0, 1, 0, 0, 0, 0);
    DO(11, 1, 0, 0, 1, 0, 2, 0, 0, 0, 0);
    DO(15, 2, 0, 2, INFINITE, 0, 255, 0, 0, 0, 0);
    DO(1, FF, 0, 0, 0, 0, 0, 3, 1, 0, 0);
    DO(17, 0, 0, 0, 0, 0, 0, 4, 1, 0, 1);
    DO(17, 0, 0, 0, INFINITE, 0, 1, 0, 2, 0, 0);
    VERIFY(woke(0, 8, 5) && woke(1, 8, 5) && woke(2, 6, 6));
    DO(11, 1, 0, 0, 9, 0, 0, 1, 5, 0, 0);
    VERIFY(woke(0, 5, 8) && woke(1, 8, 5) && woke(2, 6, 6));
}

/* Tables from outside: a reader waits at a full mailbox. Thread 2's fetch wakes
   the writer, and the writer's post, which goes on, the reader. */
static void check_two_causes(void)
{
    START("two causes in one step", 2, 3, 0, 0, 0, 1, 0);
    DO(17, 0, 0, 0, 9, 0, 1, 0, 0, 0, 0);
    t.mailbox[0].count = 2;
    t.mailbox[0].slot[0] = 11;
    t.mailbox[0].slot[1] = 12;
    DO(15, 1, 0, 13, 9, 0, 2, 0, 0, 0, 0);
    DO(17, 2, 0, 0, 0, 0, 0, 3, 7, 0, 11);
    VERIFY(woke(0, 5, 3) && woke(1, 6, 3) && woke(2, 0, 0));
    VERIFY(last_is(0, 0, 12));
}

/* Thread 1 finds its message taken: it waits again, and a tick wakes it. */
static void check_waking_kept(void)
{
    START("asleep again, woken again", 1, 3, 1, 0, 0, 1, 0);
    DO(2, 0, 0, 0, INFINITE, 0, 1, 0, 0, 0, 0);
    DO(17, 1, 0, 0, 9, 0, 2, 0, 0, 0, 0);
    DO(3, 2, 0, 0, 0, 0, 0, 1, 5, 0, 0);
    DO(15, 0, 0, 5, 0, 0, 0, 2, 1, 0, 0);
    VERIFY(woke(0, 1, 3) && woke(1, 5, 4));
    DO(17, 0, 0, 0, 0, 0, 0, 0, 1, 0, 5);
    DO(2, 0, 0, 0, INFINITE, 0, 2, 0, 0, 0, 0);
    VERIFY(waits(1, QUEUED, AT_READERS, 0) && woke(1, 5, 4));
    VERIFY(waits(0, QUEUED, AT_SEMAPHORE, 0) && woke(0, 1, 3));
    ticks(8);
    VERIFY(t.steps == 14 && woke(0, 1, 3) && woke(1, 5, 4));
    DO(1, FF, 0, 0, 0, 0, 1, 2, 2, 0, 0);
    VERIFY(woke(0, 1, 3) && woke(1, 8, 15) && woke(2, 0, 0));
}

/* "A refused step changes neither." That no byte changes is verified of each
   refused step; here the numbers go on as if it had not been. */
static void check_refused(void)
{
    START("refused steps do not count", 0, 2, 1, 0, 0, 0, 1);
    DO(2, 0, 0, 0, 9, 0, 1, 0, 0, 0, 0);
    DO(3, 0, 0, 0, 0, 3, 1, 0, 0, 0, 0);
    DO(0, FF, 0, 0, 0, 2, 1, 0, 0, 0, 0);
    DO(1, 1, 0, 0, 0, 4, 1, 0, 0, 0, 0);
    DO(3, 1, 1, 0, 0, 5, 1, 0, 0, 0, 0);
    DO(14, 1, 0, 0, 9, 6, 1, 0, 0, 0, 0);
    DO(21, FF, 0, 3, 0, 7, 1, 0, 0, 0, 0);
    VERIFY(t.steps == 1 && woke(0, 0, 0));
    DO(3, 1, 0, 0, 0, 0, 0, 1, 3, 0, 0);
    VERIFY(t.steps == 2 && woke(0, 1, 2));
    DO(3, 1, 0, 0, 0, 3, 0, 0, 0, 0, 0);
    VERIFY(t.steps == 2 && woke(0, 1, 2));
}

/* "At 4294967295 it stays there": steps go on, and wakings have that number. */
static void check_last_number(void)
{
    START("the last step number", 0, 2, 0, 0, 0, 0, 0);
    t.steps = 4294967293;
    DO(11, 0, 0, 0, 1, 0, 1, 0, 0, 0, 0);
    VERIFY(t.steps == 4294967294);
    DO(1, FF, 0, 0, 0, 0, 0, 1, 1, 0, 0);
    VERIFY(t.steps == 4294967295 && woke(0, 8, 4294967295));
    DO(14, 0, 0, 1, 9, 0, 1, 0, 0, 0, 0);
    VERIFY(t.steps == 4294967295);
    DO(1, 1, 0, 0, 0, 4, 1, 0, 0, 0, 0);
    DO(13, 1, 0, 1, 0, 0, 0, 1, 3, 0, 0);
    VERIFY(t.steps == 4294967295 && woke(0, 4, 4294967295));
    VERIFY(woke(1, 0, 0));
}

static bool breaks(uint32_t rule, uint32_t row)
{
    struct broken b = broken_rule(&t);

    return b.rule == rule && b.row == row;
}

/* A cause of two bytes would take 65536 for 0, and 65537 for 1. */
static void check_causes_outside(void)
{
    static const uint32_t outside[] = {
        9, 10, 255, 256, 65535, 65536, 65537, 2147483648, 4294967295
    };

    START("a cause outside the list", 0, 3, 1, 0, 0, 0, 0);
    for (uint32_t k = 0; k < sizeof outside / sizeof outside[0]; k++) {
        t.thread[1].cause = outside[k];
        DO(1, FF, 0, 0, 0, 1, 255, 0, 0, 0, 0);
        VERIFY(breaks(15, 1));
    }
    t.thread[2].cause = 9;
    VERIFY(breaks(15, 1));
    t.thread[1].cause = 8;
    VERIFY(breaks(15, 2));
    /* It is asked last. */
    t.words.semaphore[0] = 1;
    VERIFY(breaks(14, 0));
    t.words.ready = 3;
    VERIFY(breaks(13, 0));
}

/* Whatever a thread's cause is, it goes with any step number and any message;
   rows beyond the sizes are never looked at. */
static void check_causes_inside(void)
{
    START("any cause of the list, any number", 0, 3, 0, 0, 0, 0, 0);
    t.thread[3].cause = 9;
    for (uint32_t cause = 0; cause <= 8; cause++) {
        t.thread[1].cause = cause;
        t.thread[1].step = 4294967295 - cause;
        DO(1, FF, 0, 0, 0, 0, 0, 0, 0, 0, 0);
        VERIFY(breaks(0, 0) && t.steps == cause + 1);
        VERIFY(woke(1, cause, 4294967295 - cause));
    }
    VERIFY(t.thread[3].cause == 9);
}

void check_causes(void)
{
    check_fresh_causes();
    check_signal();
    check_pool();
    check_release_and_resume();
    check_event();
    check_post_and_fetch();
    check_reset();
    check_tick();
    check_continued_post();
    check_continued_fetch();
    check_continued_in_a_sleep();
    check_two_causes();
    check_waking_kept();
    check_refused();
    check_last_number();
    check_causes_outside();
    check_causes_inside();
}
