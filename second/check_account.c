/*
 * Hand-worked cases: the account of a run. After each step the ledger is held
 * against the tables; sums, holders and lines are worked out on paper.
 */
#include "account.h"
#include "check.h"

static struct account book;
static uint32_t number; /* of the last step */

static void open_book(void)
{
    VERIFY(tables_hang_together(&t));
    begin_account(&book, &t);
    number = 0;
    VERIFY(unlike_tables(&book, &t) == NULL);
}

static void enter(const char *file, int line, struct step s, uint32_t code)
{
    struct tables before = t;
    struct finished_calls told;
    struct result r = do_told_step(&t, &s, &told);
    struct moment m = { &before, &s, &r, &t };

    number++;
    verify(r.code == code, file, line, "another code");
    verify(code == ACCEPTED || told.number == 0, file, line,
           "a refused step is no event");
    verify(follow_step(&book, number, &told, &m) == NULL, file, line,
           "the ledger is not as the tables are");
}

/* kind, caller, object, a, timeout */
#define ENTER(k, c, o, a, time) \
    enter(__FILE__, __LINE__, (struct step){ k, c, o, a, time }, ACCEPTED)
#define REFUSED(code, k, c, o, a, time) \
    enter(__FILE__, __LINE__, (struct step){ k, c, o, a, time }, code)

static bool box_sums_are(uint32_t m, uint32_t posted, uint32_t fetched,
                         uint32_t lost, uint32_t present)
{
    struct box_sums sums = sums_of_box(&book, m);

    return sums.posted == posted && sums.fetched == fetched
        && sums.lost == lost && sums.present == present
        && t.mailbox[m].count == present;
}

static bool pool_sums_are(uint32_t p, uint32_t added, uint32_t free,
                          uint32_t out)
{
    return book.pool[p].added == added && objects_with(&book, p, FREE) == free
        && objects_with(&book, p, OUT) == out;
}

static bool out_to(uint32_t p, uint32_t object, uint32_t thread,
                   uint32_t step)
{
    const struct holding *h = &book.pool[p].object[object];

    return h->mark == OUT && h->thread == thread && h->step == step;
}

static bool posted_is(uint32_t line, uint32_t step, uint32_t thread,
                      int32_t message)
{
    const struct posting *p = &book.line[line];

    return line < book.lines && p->step == step && p->thread == thread
        && p->message == message;
}

static bool fate_is(uint32_t line, uint32_t what, uint32_t step,
                    uint32_t thread)
{
    const struct fate *f = &book.line[line].fate;

    return line < book.lines && f->what == what && f->step == step
        && f->thread == thread;
}

/* ---- mailboxes -------------------------------------------------------- */

/* Thread 0 waits for a message; it is higher than thread 1, which posts. */
static void check_fetched_at_once(void)
{
    START("a post fetched by a woken reader in its own step", 2,
          2, 0, 0, 0, 1, 0);
    open_book();
    ENTER(17, 0, 0, 0, INFINITE);
    VERIFY(box_sums_are(0, 0, 0, 0, 0));
    ENTER(15, 1, 0, 7, 0);
    VERIFY(box_sums_are(0, 1, 1, 0, 0));
    VERIFY(posted_is(0, 2, 1, 7) && fate_is(0, FETCHED, 2, 0));
    ENTER(17, 0, 0, 0, INFINITE);
    ENTER(16, FF, 0, MINUS(5), 0);
    VERIFY(box_sums_are(0, 2, 2, 0, 0));
    VERIFY(posted_is(1, 4, FF, -5) && fate_is(1, FETCHED, 4, 0));
}

static void check_order_and_reset(void)
{
    START("the order of postings, and what a reset loses", 3,
          1, 0, 0, 0, 1, 0);
    open_book();
    ENTER(15, 0, 0, 10, 0);
    ENTER(15, FF, 0, 11, 0);
    ENTER(16, 0, 0, 12, 0);
    VERIFY(box_sums_are(0, 3, 0, 0, 3) && book.line[2].passed == 2);
    ENTER(15, 0, 0, 13, 0); /* full: -1 */
    ENTER(16, FF, 0, 13, 0);
    VERIFY(box_sums_are(0, 3, 0, 0, 3));
    ENTER(17, FF, 0, 0, 0);
    VERIFY(fate_is(2, FETCHED, 6, FF));
    ENTER(17, 0, 0, 0, 0);
    VERIFY(fate_is(0, FETCHED, 7, 0) && fate_is(1, PRESENT, 0, 0));
    VERIFY(box_sums_are(0, 3, 2, 0, 1));
    REFUSED(3, 15, 1, 0, 14, 0);
    REFUSED(5, 17, 0, 1, 0, 0);
    ENTER(15, 0, 0, 20, 0);
    ENTER(18, FF, 0, 0, 0);
    VERIFY(box_sums_are(0, 4, 2, 2, 0));
    VERIFY(fate_is(1, LOST, 11, FF) && fate_is(3, LOST, 11, FF));
    ENTER(15, 0, 0, 21, 0); /* reset state: -2 */
    ENTER(17, 0, 0, 0, 0);
    VERIFY(box_sums_are(0, 4, 2, 2, 0));
    ENTER(19, 0, 0, 0, 0);
    ENTER(15, 0, 0, 30, 0);
    VERIFY(box_sums_are(0, 5, 2, 2, 1));
    ENTER(18, 0, 0, 0, 0);
    ENTER(18, 0, 0, 0, 0); /* nothing is there to lose */
    VERIFY(box_sums_are(0, 5, 2, 3, 0) && fate_is(4, LOST, 16, 0));
}

/* Thread 0 posts into a full box of one slot: when it finishes, it counts. */
static void check_later_step(void)
{
    START("a post counts in the step in which it finishes", 1,
          2, 0, 0, 0, 1, 0);
    open_book();
    ENTER(15, 0, 0, 1, 0);
    ENTER(15, 0, 0, 2, INFINITE);
    VERIFY(box_sums_are(0, 1, 0, 0, 1));
    ENTER(17, 1, 0, 0, 0);
    VERIFY(box_sums_are(0, 2, 1, 0, 1) && posted_is(1, 3, 0, 2));
    ENTER(15, 0, 0, 3, 1);
    ENTER(1, FF, 0, 0, 0); /* it timed out */
    VERIFY(box_sums_are(0, 2, 1, 0, 1));
    ENTER(15, 0, 0, 4, INFINITE);
    ENTER(18, 1, 0, 0, 0); /* and this one has -2 */
    VERIFY(box_sums_are(0, 2, 1, 1, 0) && fate_is(1, LOST, 7, 1));
}

/* Thread 0 makes room and then asks for more: it sleeps, thread 1 comes to
   post, and thread 0 is awake again, all in step 6. */
static void check_own_fetch(void)
{
    START("a fetch that sleeps and is served in its own step", 1,
          2, 0, 0, 0, 1, 0);
    open_book();
    ENTER(15, 0, 0, 1, 0);
    ENTER(11, 0, 0, 0, 1);
    ENTER(15, 1, 0, 2, INFINITE);
    ENTER(1, FF, 0, 0, 0);
    ENTER(17, 0, 0, 0, 0);
    VERIFY(box_sums_are(0, 1, 1, 0, 0) && fate_is(0, FETCHED, 5, 0));
    ENTER(17, 0, 0, 0, INFINITE);
    VERIFY(box_sums_are(0, 2, 2, 0, 0));
    VERIFY(posted_is(1, 6, 1, 2) && fate_is(1, FETCHED, 6, 0));
}

/* Thread 0 takes the message that thread 1 was woken for. */
static void check_robbed(void)
{
    START("a robbed reader fetches nothing", 2, 2, 0, 0, 0, 2, 0);
    open_book();
    ENTER(11, 0, 0, 0, 1);
    ENTER(17, 1, 1, 0, 9);
    ENTER(1, FF, 0, 0, 0);
    ENTER(15, 0, 1, 7, 0);
    VERIFY(box_sums_are(1, 1, 0, 0, 1) && fate_is(0, PRESENT, 0, 0));
    ENTER(17, 0, 1, 0, 0);
    VERIFY(fate_is(0, FETCHED, 5, 0));
    ENTER(11, 0, 0, 0, 9); /* 1 sleeps again */
    VERIFY(box_sums_are(1, 1, 1, 0, 0) && box_sums_are(0, 0, 0, 0, 0));
}

/* ---- pools ------------------------------------------------------------ */

static void check_promised(void)
{
    START("an object promised to a woken thread is still free", 0,
          2, 0, 0, 0, 0, 1);
    open_book();
    ENTER(22, FF, 0, 4, 0);
    VERIFY(pool_sums_are(0, 1, 1, 0));
    ENTER(20, 0, 0, 0, 0);
    VERIFY(pool_sums_are(0, 1, 0, 1) && out_to(0, 4, 0, 2));
    ENTER(11, 0, 0, 0, 1);
    ENTER(20, 1, 0, 0, INFINITE);
    ENTER(1, FF, 0, 0, 0);
    ENTER(21, 0, 0, 4, 0);
    VERIFY(pool_sums_are(0, 1, 1, 0) && t.pool[0].counter == 0);
    ENTER(20, FF, 0, 0, 0); /* -1: it is not the interrupt's */
    VERIFY(pool_sums_are(0, 1, 1, 0));
    ENTER(11, 0, 0, 0, 9);
    VERIFY(pool_sums_are(0, 1, 0, 1) && out_to(0, 4, 1, 8));
    ENTER(22, FF, 0, 9, 0);
    ENTER(20, FF, 0, 0, 0);
    VERIFY(pool_sums_are(0, 2, 0, 2) && out_to(0, 9, FF, 10));
    REFUSED(7, 21, 1, 0, 5, 0);
    REFUSED(7, 22, 1, 0, 9, 0);
    REFUSED(6, 22, 1, 0, 32, 0);
    VERIFY(pool_sums_are(0, 2, 0, 2));
    ENTER(21, 1, 0, 9, 0);
    VERIFY(pool_sums_are(0, 2, 1, 1) && out_to(0, 4, 1, 8));
}

/* Thread 0 waits, and thread 1 gives: what it gives is taken at once. */
static void check_given_at_once(void)
{
    START("an object freed and handed over in one step", 0,
          2, 0, 0, 0, 0, 2);
    open_book();
    ENTER(20, 0, 1, 0, INFINITE);
    ENTER(22, 1, 1, 3, 0);
    VERIFY(pool_sums_are(1, 1, 0, 1) && out_to(1, 3, 0, 2));
    ENTER(20, 0, 1, 0, INFINITE);
    ENTER(21, 1, 1, 3, 0);
    VERIFY(pool_sums_are(1, 1, 0, 1) && out_to(1, 3, 0, 4));
    ENTER(20, 0, 1, 0, 2);
    ENTER(1, FF, 0, 0, 0);
    ENTER(1, FF, 0, 0, 0); /* it timed out: nothing is handed over */
    VERIFY(pool_sums_are(1, 1, 0, 1) && out_to(1, 3, 0, 4));
    VERIFY(pool_sums_are(0, 0, 0, 0));
}

/* ---- tables that are not fresh ---------------------------------------- */

/* Messages 6 and then 5; object 2 is free, object 7 out. */
static void check_from_tables(void)
{
    START("an account from tables that are not fresh", 2, 1, 0, 0, 0, 1, 1);
    t.mailbox[0].read = 1;
    t.mailbox[0].write = 1;
    t.mailbox[0].count = 2;
    t.mailbox[0].slot[0] = 5;
    t.mailbox[0].slot[1] = 6;
    t.pool[0].counter = 1;
    t.pool[0].length = 1;
    t.pool[0].list[0] = 2;
    t.pool[0].mark[2] = FREE;
    t.pool[0].mark[7] = OUT;
    open_book();
    VERIFY(box_sums_are(0, 2, 0, 0, 2) && pool_sums_are(0, 2, 1, 1));
    VERIFY(posted_is(0, 0, 255, 6) && posted_is(1, 0, 255, 5));
    VERIFY(out_to(0, 7, 255, 0));
    ENTER(17, 0, 0, 0, 0);
    VERIFY(box_sums_are(0, 2, 1, 0, 1) && fate_is(0, FETCHED, 1, 0));
    ENTER(18, 0, 0, 0, 0);
    VERIFY(box_sums_are(0, 2, 1, 1, 0) && fate_is(1, LOST, 2, 0));
    ENTER(21, 0, 0, 7, 0);
    VERIFY(pool_sums_are(0, 2, 2, 0));
    ENTER(20, 0, 0, 0, 0);
    VERIFY(pool_sums_are(0, 2, 1, 1) && out_to(0, 7, 0, 4));
}

/* ---- what the ledger must find ---------------------------------------- */

/* Whether it finds fault with a call that answered 0 and the datum. */
static bool finds(uint32_t kind, uint32_t operand, uint32_t datum)
{
    static struct account copy;
    struct finished_calls told = { 1, { { 0, kind, 0, operand,
                                          { MSG_OK, datum } } } };

    copy = book;
    return enter_calls(&copy, 9, &told) != NULL;
}

static void check_wrong_calls(void)
{
    START("calls that cannot have finished so", 2, 1, 0, 0, 0, 1, 1);
    open_book();
    VERIFY(finds(17, 0, 0));
    ENTER(15, 0, 0, 8, 0);
    VERIFY(finds(17, 0, 7) && !finds(17, 0, 8));
    VERIFY(!finds(15, 9, 0) && !finds(16, 9, 0));
    ENTER(16, 0, 0, 9, 0);
    VERIFY(finds(15, 1, 0) && finds(16, 1, 0) && finds(17, 0, 8));
    ENTER(22, 0, 0, 3, 0);
    VERIFY(finds(20, 0, 4) && finds(20, 0, 32) && !finds(20, 0, 3));
    VERIFY(finds(22, 3, 0) && finds(22, 32, 0) && !finds(22, 4, 0));
    VERIFY(finds(21, 3, 0) && finds(21, 4, 0) && finds(21, 32, 0));
    ENTER(20, 0, 0, 0, 0);
    VERIFY(finds(20, 0, 3) && finds(22, 3, 0) && !finds(21, 3, 0));
}

/* Whether it finds fault with the tables of which one value is another. */
static bool finds_signed(int32_t *value, int32_t other)
{
    int32_t old = *value;
    bool found;

    *value = other;
    found = unlike_tables(&book, &t) != NULL;
    *value = old;
    return found;
}

static bool finds_unsigned(uint32_t *value, uint32_t other)
{
    uint32_t old = *value;
    bool found;

    *value = other;
    found = unlike_tables(&book, &t) != NULL;
    *value = old;
    return found;
}

static void check_wrong_tables(void)
{
    START("tables that are not as the calls left them", 3,
          1, 0, 0, 0, 1, 1);
    open_book();
    ENTER(15, 0, 0, 8, 0);
    ENTER(16, 0, 0, 9, 0);
    ENTER(22, 0, 0, 3, 0);
    VERIFY(finds_signed(&t.mailbox[0].slot[0], 7));
    VERIFY(!finds_signed(&t.mailbox[0].slot[1], 7)); /* not in use */
    VERIFY(finds_signed(&t.mailbox[0].slot[2], 8));
    VERIFY(finds_unsigned(&t.mailbox[0].count, 1));
    VERIFY(finds_unsigned(&t.mailbox[0].read, 0));
    VERIFY(finds_unsigned(&t.pool[0].mark[3], OUT));
    VERIFY(finds_unsigned(&t.pool[0].mark[4], FREE));
    VERIFY(finds_unsigned(&t.pool[0].length, 0));
    VERIFY(unlike_tables(&book, &t) == NULL);
}

/* Thread 1's post wakes thread 0, which fetches; then what is told is spoilt. */
static void check_wrong_telling(void)
{
    static const struct step post = { POST, 1, 0, 7, 0 };
    struct finished_calls told, other;
    struct result r;
    struct tables before;
    struct moment m = { &before, &post, &r, &t };

    START("calls told that are not the result's", 2, 2, 0, 0, 0, 1, 0);
    DO(17, 0, 0, 0, INFINITE, 0, 1, 0, 0, 0, 0);
    before = t;
    r = do_told_step(&t, &post, &told);
    VERIFY(told.number == 2 && told.call[0].caller == 1
           && told.call[1].caller == 0 && told.call[1].answer.datum == 7);
    VERIFY(unlike_result(&told, &m) == NULL);
    other = told;
    other.number = 1;
    VERIFY(unlike_result(&other, &m) != NULL);
    other = told;
    other.call[1] = other.call[0];
    VERIFY(unlike_result(&other, &m) != NULL);
    other = told;
    other.call[1].answer.datum = 8;
    VERIFY(unlike_result(&other, &m) != NULL);
    other = told;
    other.call[0].operand = 8;
    VERIFY(unlike_result(&other, &m) != NULL);
    other = told;
    other.call[1].kind = POOL_ALLOC;
    VERIFY(unlike_result(&other, &m) != NULL);
}

void check_account(void)
{
    check_fetched_at_once();
    check_order_and_reset();
    check_later_step();
    check_own_fetch();
    check_robbed();
    check_promised();
    check_given_at_once();
    check_from_tables();
    check_wrong_calls();
    check_wrong_tables();
    check_wrong_telling();
}
