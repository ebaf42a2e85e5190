/* Hand-worked cases: the ready word and the words of the places. */
#include "broken.h"
#include "check.h"

#include <string.h>

static bool is_ready(uint32_t word)
{
    return t.words.ready == word;
}

/* The word, one of t's, has the value, and all others but the ready one are
   0. */
static bool only_at(uint32_t *word, uint32_t value)
{
    static const struct words none;
    struct words kept = t.words;
    bool fine = *word == value;

    *word = 0;
    t.words.ready = 0;
    fine = fine && memcmp(&t.words, &none, sizeof none) == 0;
    t.words = kept;
    return fine;
}

static void check_fresh_words(void)
{
    struct sizes most = { 16, 16, 8, 8, 4, 4, { 16, 16, 16, 16 } };

    START("fresh words", 1, 1, 0, 0, 0, 0, 0);
    VERIFY(is_ready(1) && only_at(&t.words.filler, 0));
    memset(&t, 0xee, sizeof t);
    START("fresh words", 1, 3, 1, 1, 1, 1, 1);
    VERIFY(is_ready(7) && only_at(&t.words.filler, 0));
    VERIFY(fresh_tables(&t, &most, NULL) == ACCEPTED);
    VERIFY(is_ready(65535) && only_at(&t.words.filler, 0));
    VERIFY(tables_hang_together(&t));
}

static void check_semaphore_word(void)
{
    START("the word of a semaphore", 0, 3, 2, 0, 0, 0, 0);
    DO(2, 0, 1, 0, 3, 0, 1, 0, 0, 0, 0);
    VERIFY(is_ready(6) && only_at(&t.words.semaphore[1], 1));
    DO(2, 1, 1, 0, INFINITE, 0, 2, 0, 0, 0, 0);
    VERIFY(is_ready(4) && only_at(&t.words.semaphore[1], 3));
    DO(2, 2, 1, 0, 1, 0, 255, 0, 0, 0, 0);
    VERIFY(is_ready(0) && only_at(&t.words.semaphore[1], 7));
    /* The tick ends thread 2's wait. */
    DO(1, FF, 0, 0, 0, 0, 2, 4, 4, 0, 0);
    VERIFY(is_ready(4) && only_at(&t.words.semaphore[1], 3));
    DO(3, 2, 1, 0, 0, 0, 0, 1, 5, 0, 0);
    VERIFY(is_ready(5) && only_at(&t.words.semaphore[1], 2));
    /* Refused: a wait of a thread that does not run. */
    DO(2, 2, 1, 0, 9, 3, 0, 0, 0, 0, 0);
    VERIFY(is_ready(5) && only_at(&t.words.semaphore[1], 2));
    DO(4, FF, 1, 1, 0, 0, 0, 2, 0, 0, 0);
    VERIFY(is_ready(7) && only_at(&t.words.semaphore[1], 0));
}

static void check_mailbox_words(void)
{
    START("the words of a mailbox's sides", 1, 3, 0, 1, 0, 2, 0);
    DO(17, 0, 1, 0, 9, 0, 1, 0, 0, 0, 0);
    VERIFY(is_ready(6) && only_at(&t.words.readers[1], 1));
    DO(15, 1, 1, 5, 9, 0, 0, 1, 3, 0, 0);
    VERIFY(is_ready(7) && only_at(&t.words.readers[1], 0));
    DO(15, 0, 1, 6, 9, 0, 0, 0, 1, 0, 0);
    DO(15, 0, 1, 7, 9, 0, 1, 0, 0, 0, 0);
    DO(16, 1, 1, 8, 9, 0, 2, 0, 0, 0, 0);
    VERIFY(is_ready(4) && only_at(&t.words.writers[1], 3));
    DO(6, 2, 0, 0, INFINITE, 0, 255, 0, 0, 0, 0);
    VERIFY(is_ready(0) && t.words.writers[1] == 3 && t.words.queue[0] == 4);
    DO(18, FF, 1, 0, 0, 0, 0, 3, 1, 0, 0);
    VERIFY(is_ready(3) && only_at(&t.words.queue[0], 4));
}

/* Thread 1 is woken by the post and finds the message taken when it comes to
   run: it sleeps again, and its bit is back. */
static void check_asleep_again(void)
{
    START("a word after a call slept again", 1, 3, 1, 0, 0, 1, 0);
    DO(2, 0, 0, 0, INFINITE, 0, 1, 0, 0, 0, 0);
    DO(17, 1, 0, 0, 9, 0, 2, 0, 0, 0, 0);
    DO(3, 2, 0, 0, 0, 0, 0, 1, 5, 0, 0);
    DO(15, 0, 0, 5, 0, 0, 0, 2, 1, 0, 0);
    VERIFY(is_ready(7) && only_at(&t.words.readers[0], 0));
    DO(17, 0, 0, 0, 0, 0, 0, 0, 1, 0, 5);
    DO(2, 0, 0, 0, INFINITE, 0, 2, 0, 0, 0, 0);
    VERIFY(is_ready(4));
    VERIFY(t.words.readers[0] == 2 && t.words.semaphore[0] == 1);
}

/* No word tells of references, sleepers and event waiters. */
static void check_no_word(void)
{
    START("waits without a word", 0, 4, 0, 0, 1, 0, 1);
    DO(9, 0, 0, 0, 2, 0, 1, 0, 0, 0, 0);
    DO(11, 1, 0, 0, 2, 0, 2, 0, 0, 0, 0);
    DO(14, 2, 0, 1, 2, 0, 3, 0, 0, 0, 0);
    VERIFY(is_ready(8) && only_at(&t.words.filler, 0));
    DO(20, 3, 0, 0, 2, 0, 255, 0, 0, 0, 0);
    VERIFY(is_ready(0) && only_at(&t.words.pool[0], 8));
    DO(1, FF, 0, 0, 0, 0, 255, 0, 0, 0, 0);
    DO(1, FF, 0, 0, 0, 0, 0, 15, 1, 0, 0);
    VERIFY(is_ready(15) && only_at(&t.words.pool[0], 0));
}

/* 0 and 1 are ready, 2 waits at semaphore 0, 3 at queue 1, 4 as a writer at
   mailbox 0, 5 as a reader at mailbox 1, 6 at pool 1, and 7 sleeps. */
static void waiting_tables(void)
{
    START("wrong words", 1, 8, 1, 2, 0, 2, 2);
    DO(15, 0, 0, 5, 0, 0, 0, 0, 1, 0, 0);
    DO(11, 0, 0, 0, 1, 0, 1, 0, 0, 0, 0);
    DO(11, 1, 0, 0, 1, 0, 2, 0, 0, 0, 0);
    DO(2, 2, 0, 0, 9, 0, 3, 0, 0, 0, 0);
    DO(6, 3, 1, 0, 9, 0, 4, 0, 0, 0, 0);
    DO(15, 4, 0, 6, 9, 0, 5, 0, 0, 0, 0);
    DO(17, 5, 1, 0, 9, 0, 6, 0, 0, 0, 0);
    DO(20, 6, 1, 0, 9, 0, 7, 0, 0, 0, 0);
    DO(11, 7, 0, 0, 9, 0, 255, 0, 0, 0, 0);
    DO(1, FF, 0, 0, 0, 0, 0, 3, 1, 0, 0);
    VERIFY(is_ready(3) && t.words.semaphore[0] == 4 && t.words.queue[1] == 8);
    VERIFY(t.words.writers[0] == 16 && t.words.readers[1] == 32);
    VERIFY(t.words.pool[1] == 64 && t.words.queue[0] == 0);
    VERIFY(broken_rule(&t).rule == NO_RULE);
}

/* The damage is done to good tables; the step is then refused with 1, keeps
   every byte, and the rule that is broken first is the word's. */
#define WRONG(number, place, damage) \
    do { \
        t = good; \
        damage; \
        VERIFY(broken_rule(&t).rule == number); \
        VERIFY(broken_rule(&t).row == place); \
        DO(1, FF, 0, 0, 0, 1, 255, 0, 0, 0, 0); \
    } while (0)

static void check_wrong_ready_word(void)
{
    struct tables good;

    waiting_tables();
    good = t;
    WRONG(13, 0, t.words.ready = 2); /* the running thread is missing */
    WRONG(13, 0, t.words.ready = 1); /* another one is */
    WRONG(13, 0, t.words.ready = 0);
    WRONG(13, 0, t.words.ready = 7);  /* a waiter too many */
    WRONG(13, 0, t.words.ready = 131); /* a sleeper too many */
    WRONG(13, 0, t.words.ready = 259); /* a bit from T on */
    WRONG(13, 0, t.words.ready = 32771);
    WRONG(13, 0, t.words.ready = 65539); /* no bit of 16 */
    WRONG(13, 0, t.words.ready = UINT32_MAX);
    WRONG(13, 0, t.words.ready = 2; t.words.pool[1] = 0);
    /* The paper's own rules come first. */
    WRONG(RUNNING_RULE, 1, t.thread[0].state = SLEEPING;
          t.thread[0].call = t.thread[7].call; t.thread[0].remaining = 1);
    WRONG(COUNTER_RULE, 0, t.words.ready = 0; t.semaphore[0] = 0);
}

static void check_wrong_waiting_words(void)
{
    struct tables good;

    waiting_tables();
    good = t;
    WRONG(14, 0, t.words.semaphore[0] = 0);   /* a bit missing */
    WRONG(14, 0, t.words.semaphore[0] = 5);   /* a ready thread too many */
    WRONG(14, 0, t.words.semaphore[0] = 8);   /* another waiter in its place */
    WRONG(14, 0, t.words.semaphore[0] = 260); /* a bit from T on */
    WRONG(14, 17, t.words.pool[1] = 0);
    WRONG(14, 16, t.words.pool[0] = 64);
    WRONG(14, 17, t.words.pool[1] = 64 + 32768);
    WRONG(14, 21, t.words.queue[1] = 0);
    WRONG(14, 20, t.words.queue[0] = 8);
    WRONG(14, 20, t.words.queue[0] = UINT32_MAX);
    WRONG(14, 28, t.words.writers[0] = 32);
    WRONG(14, 29, t.words.writers[1] = 32); /* it waits at the other side */
    WRONG(14, 33, t.words.readers[1] = 0);
    WRONG(14, 32, t.words.readers[0] = 16);
    /* The lowest place is named. */
    WRONG(14, 16, t.words.pool[0] = 1; t.words.queue[0] = 1);
    WRONG(14, 28, t.words.writers[0] = 0; t.words.readers[1] = 0);
    /* Records that agree with each other, and with the words no more. */
    WRONG(13, 0, t.thread[2] = t.thread[7]; t.semaphore[0] = 0;
          t.words.ready = 1);
    WRONG(14, 0, t.thread[2] = t.thread[7]; t.semaphore[0] = 0);
}

/* Words of places that there are not are never looked at, and never written. */
static void check_unused_words(void)
{
    struct words kept;

    waiting_tables();
    memset(&t.words.semaphore[1], 0xff, 15 * sizeof t.words.semaphore[0]);
    memset(&t.words.queue[2], 0xee, 6 * sizeof t.words.queue[0]);
    t.words.writers[2] = 1;
    t.words.readers[3] = UINT32_MAX;
    t.words.pool[2] = 64;
    t.words.filler = 12345;
    VERIFY(tables_hang_together(&t) && broken_rule(&t).rule == NO_RULE);
    kept = t.words;
    DO(11, 0, 0, 0, 1, 0, 1, 0, 2, 0, 0);
    kept.ready = 2;
    VERIFY(memcmp(&kept, &t.words, sizeof kept) == 0);
    DO(3, 1, 0, 0, 0, 0, 1, 4, 2, 0, 0);
    kept.ready = 6;
    kept.semaphore[0] = 0;
    VERIFY(memcmp(&kept, &t.words, sizeof kept) == 0);
}

void check_words(void)
{
    check_fresh_words();
    check_semaphore_word();
    check_mailbox_words();
    check_asleep_again();
    check_no_word();
    check_wrong_ready_word();
    check_wrong_waiting_words();
    check_unused_words();
}
