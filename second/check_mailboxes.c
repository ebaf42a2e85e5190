/* Hand-worked cases: mailboxes. */
#include "check.h"

static void check_mailbox_order(void)
{
    START("post, post ahead, fetch", 3, 1, 0, 0, 0, 1, 0);
    DO(17, 0, 0, 0, 0, 0, 0, 0, 1, -1, 0);
    DO(15, 0, 0, 10, 0, 0, 0, 0, 1, 0, 0);
    DO(15, FF, 0, MINUS(11), 0, 0, 0, 0, 0, 0, 0);
    VERIFY(box_is(0, 0, 2, 2));
    DO(16, 0, 0, 12, 7, 0, 0, 0, 1, 0, 0);
    VERIFY(box_is(0, 2, 2, 3) && t.mailbox[0].slot[2] == 12);
    DO(15, 0, 0, 13, 0, 0, 0, 0, 1, -1, 0);
    DO(16, FF, 0, 13, 0, 0, 0, 0, 0, -1, 0);
    DO(17, 0, 0, 0, 3, 0, 0, 0, 1, 0, 12);
    DO(17, FF, 0, 0, 0, 0, 0, 0, 0, 0, 10);
    DO(17, 0, 0, 0, 0, 0, 0, 0, 1, 0, MINUS(11));
    VERIFY(box_is(0, 2, 2, 0) && t.mailbox[0].slot[1] == -11);
    DO(17, FF, 0, 0, 1, 4, 0, 0, 0, 0, 0);
    DO(17, FF, 1, 0, 0, 5, 0, 0, 0, 0, 0);
}

/* Thread 0 wakes the fetching thread 1 and takes the message before it. */
static void check_mailbox_full_timeout(void)
{
    START("a retried mailbox call gets its FULL timeout", 1,
          2, 0, 0, 0, 1, 0);
    DO(11, 0, 0, 0, 2, 0, 1, 0, 0, 0, 0);
    DO(17, 1, 0, 99, 5, 0, 255, 0, 0, 0, 0);
    VERIFY(waits(1, QUEUED, AT_READERS, 0) && call_is(1, 17, 0, 0, 5));
    ticks(2);
    VERIFY(t.thread[1].remaining == 3 && t.mailbox[0].readers == -1);
    DO(15, 0, 0, 7, 0, 0, 0, 2, 1, 0, 0);
    VERIFY(t.mailbox[0].readers == 0 && t.thread[1].remaining == 0);
    DO(17, 0, 0, 0, 0, 0, 0, 0, 1, 0, 7);
    DO(11, 0, 0, 0, 9, 0, 255, 0, 0, 0, 0);
    VERIFY(t.thread[1].remaining == 5 && t.mailbox[0].readers == -1);
    VERIFY(waits(1, QUEUED, AT_READERS, 0) && last_is(1, 0, 0));
    ticks(4);
    DO(1, FF, 0, 0, 0, 0, 1, 2, 2, 0, 0);
    VERIFY(last_is(1, -1, 0) && t.mailbox[0].readers == 0);
}

/* Thread 0 posts to a full box and sleeps; the woken reader fetches and
   releases it; it posts: all in one step. */
static void check_mailbox_slept_and_finished(void)
{
    START("a caller may sleep and finish in one step", 1, 2, 0, 0, 0, 1, 0);
    DO(11, 0, 0, 0, 1, 0, 1, 0, 0, 0, 0);
    DO(17, 1, 0, 0, 9, 0, 255, 0, 0, 0, 0);
    ticks(1);
    DO(15, 0, 0, 7, 0, 0, 0, 2, 1, 0, 0);
    DO(16, 0, 0, 8, 5, 0, 0, 1, 3, 0, 0);
    VERIFY(last_is(1, 0, 7) && last_is(0, 0, 0));
    VERIFY(t.mailbox[0].slot[0] == 8 && box_is(0, 0, 0, 1));
    VERIFY(t.mailbox[0].writers == 0 && t.mailbox[0].readers == 0);
}

static void check_mailbox_reset(void)
{
    START("mailbox reset and resume", 2, 3, 0, 0, 0, 1, 0);
    DO(17, 0, 0, 0, 9, 0, 1, 0, 0, 0, 0);
    DO(17, 1, 0, 0, 9, 0, 2, 0, 0, 0, 0);
    DO(18, 2, 0, 0, 0, 0, 0, 3, 5, 0, 0);
    VERIFY(last_is(0, -2, 0) && t.mailbox[0].readers == 0);
    VERIFY(t.mailbox[0].reset != 0 && t.thread[1].wake_message == -2);
    DO(15, 0, 0, 1, 0, 0, 0, 0, 1, -2, 0);
    DO(17, 0, 0, 0, 4, 0, 0, 0, 1, -2, 0);
    DO(16, FF, 0, 1, 0, 0, 0, 0, 0, -2, 0);
    DO(18, FF, 0, 0, 0, 0, 0, 0, 0, 0, 0);
    DO(19, FF, 0, 0, 0, 0, 0, 0, 0, 0, 0);
    DO(19, 0, 0, 0, 0, 0, 0, 0, 1, 0, 0);
    DO(15, 0, 0, 1, 0, 0, 0, 0, 1, 0, 0);
    DO(15, 0, 0, 2, 0, 0, 0, 0, 1, 0, 0);
    DO(17, 0, 0, 0, 0, 0, 0, 0, 1, 0, 1);
    DO(15, 0, 0, 2, 0, 0, 0, 0, 1, 0, 0);
    VERIFY(box_is(0, 1, 1, 2));
    DO(15, 0, 0, 3, 4, 0, 1, 0, 2, 0, 0);
    VERIFY(last_is(1, -2, 0) && t.mailbox[0].writers == -1);
    VERIFY(waits(0, QUEUED, AT_WRITERS, 0) && call_is(0, 15, 0, 3, 4));
    DO(18, 1, 0, 0, 0, 0, 0, 1, 3, 0, 0);
    VERIFY(box_is(0, 0, 0, 0) && t.mailbox[0].slot[1] == 2);
}

/* One post wakes one reader, the highest, and leaves the other waiting. */
static void check_mailbox_one_reader(void)
{
    START("a post releases the first reader only", 2, 3, 0, 0, 0, 1, 0);
    DO(11, 0, 0, 0, 1, 0, 1, 0, 0, 0, 0);
    DO(17, 1, 0, 0, 9, 0, 2, 0, 0, 0, 0);
    DO(17, 2, 0, 0, 9, 0, 255, 0, 0, 0, 0);
    ticks(1);
    DO(15, 0, 0, 7, 0, 0, 0, 2, 1, 0, 0);
    VERIFY(t.mailbox[0].readers == -1);
    DO(16, 0, 0, 8, 0, 0, 0, 4, 1, 0, 0);
    VERIFY(t.mailbox[0].readers == 0);
    DO(11, 0, 0, 0, 9, 0, 1, 0, 2, 0, 0);
    VERIFY(last_is(1, 0, 8));
    DO(11, 1, 0, 0, 9, 0, 2, 0, 4, 0, 0);
    VERIFY(last_is(2, 0, 7));
}

/* Two writers wait at a full box. The higher one is woken first, is robbed of
   the room by thread 0, and is woken first again. */
static void check_mailbox_writers(void)
{
    START("writers wait, highest first", 1, 3, 0, 0, 0, 1, 0);
    DO(15, 0, 0, 1, 0, 0, 0, 0, 1, 0, 0);
    DO(11, 0, 0, 0, 1, 0, 1, 0, 0, 0, 0);
    DO(15, 1, 0, 2, 6, 0, 2, 0, 0, 0, 0);
    DO(16, 2, 0, 3, 6, 0, 255, 0, 0, 0, 0);
    VERIFY(t.mailbox[0].writers == -2);
    ticks(1);
    DO(17, 0, 0, 0, 0, 0, 0, 2, 1, 0, 1);
    DO(15, 0, 0, 4, 0, 0, 0, 0, 1, 0, 0);
    /* 1 was robbed of the room: it sleeps again, all its 6 ticks. */
    DO(11, 0, 0, 0, 9, 0, 255, 0, 0, 0, 0);
    VERIFY(t.mailbox[0].writers == -2 && t.thread[1].remaining == 6);
    VERIFY(t.thread[2].remaining == 5);
    DO(17, FF, 0, 0, 0, 0, 1, 2, 2, 0, 4);
    DO(17, FF, 0, 0, 0, 0, 1, 4, 0, 0, 2);
    DO(11, 1, 0, 0, 9, 0, 2, 0, 4, 0, 0);
    VERIFY(t.mailbox[0].slot[0] == 3 && t.mailbox[0].writers == 0);
}

/* Woken with 0, but the box is reset before the thread comes to run: the
   reset state is looked at first. */
static void check_mailbox_reset_before_retry(void)
{
    START("a retried call finds the reset state", 1, 2, 0, 0, 0, 1, 0);
    DO(11, 0, 0, 0, 1, 0, 1, 0, 0, 0, 0);
    DO(17, 1, 0, 0, 9, 0, 255, 0, 0, 0, 0);
    ticks(1);
    DO(15, 0, 0, 7, 0, 0, 0, 2, 1, 0, 0);
    DO(18, 0, 0, 0, 0, 0, 0, 0, 1, 0, 0);
    VERIFY(t.thread[1].wake_message == 0);
    DO(11, 0, 0, 0, 5, 0, 1, 0, 2, 0, 0);
    VERIFY(last_is(1, -2, 0));
}

void check_mailboxes(void)
{
    check_mailbox_order();
    check_mailbox_full_timeout();
    check_mailbox_slept_and_finished();
    check_mailbox_reset();
    check_mailbox_one_reader();
    check_mailbox_writers();
    check_mailbox_reset_before_retry();
}
