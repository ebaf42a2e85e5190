/* Hand-worked cases: refusals in their order, and fresh tables. */
#include "check.h"

static void check_refusal_order(void)
{
    START("refusals in their order", 1, 3, 1, 1, 1, 1, 1);
    DO(9, 0, 0, 0, 9, 0, 1, 0, 0, 0, 0);
    DO(0, 1, 0, 0, 0, 2, 1, 0, 0, 0, 0);
    DO(23, 9, 0, 0, 0, 2, 1, 0, 0, 0, 0);
    DO(30, 0, 0, 0, 0, 2, 1, 0, 0, 0, 0);
    DO(1, 0, 0, 0, 0, 3, 1, 0, 0, 0, 0);
    DO(1, 1, 0, 0, 0, 4, 1, 0, 0, 0, 0);
    DO(9, FF, 0, 0, 0, 4, 1, 0, 0, 0, 0);
    DO(2, FF, 9, 0, 0, 4, 1, 0, 0, 0, 0);
    DO(6, FF, 0, 0, 0, 4, 1, 0, 0, 0, 0);
    DO(11, FF, 0, 0, 0, 4, 1, 0, 0, 0, 0);
    DO(14, FF, 0, 0, 0, 4, 1, 0, 0, 0, 0);
    DO(15, FF, 9, 0, 1, 4, 1, 0, 0, 0, 0);
    DO(16, FF, 9, 0, 0, 5, 1, 0, 0, 0, 0);
    DO(20, FF, 1, 0, 0, 5, 1, 0, 0, 0, 0);
    DO(21, 1, 1, 99, 0, 5, 1, 0, 0, 0, 0);
    DO(4, 1, 1, UINT32_MAX, 0, 5, 1, 0, 0, 0, 0);
    DO(21, 1, 0, 99, 0, 6, 1, 0, 0, 0, 0);
    DO(13, 1, 3, 0, 0, 5, 1, 0, 0, 0, 0);
    DO(9, 1, 0, 0, 0, 7, 1, 0, 0, 0, 0);
    DO(255, 255, 255, UINT32_MAX, UINT32_MAX, 2, 1, 0, 0, 0, 0);
    /* Unused fields are ignored. */
    DO(1, FF, 200, 77, 88, 0, 1, 0, 0, 0, 0);
    DO(14, 1, 200, 1, 0, 0, 1, 0, 2, -1, 0);
}

static void check_idle(void)
{
    START("idle", 0, 1, 1, 0, 0, 0, 0);
    DO(11, 0, 0, 0, 9, 0, 255, 0, 0, 0, 0);
    /* 255 is an interrupt, also while idle runs. */
    DO(2, 255, 0, 0, 0, 4, 255, 0, 0, 0, 0);
    DO(3, 0, 0, 0, 0, 3, 255, 0, 0, 0, 0);
    DO(3, 255, 0, 0, 0, 0, 255, 0, 0, 0, 0);
}

static void check_fresh(void)
{
    struct sizes z = { 1, 0, 0, 0, 0, 0, { 0 } };
    static const uint32_t zero = 0, old = 1000, most = 1000000, more = 1000001;

    about("fresh tables");
    VERIFY(fresh_tables(&t, &z, NULL) == 0 && t.clock.frequency == 10000);
    VERIFY(fresh_tables(&t, &z, &old) == 0 && t.clock.frequency == 1000);
    VERIFY(fresh_tables(&t, &z, &most) == 0 && t.clock.frequency == most);
    VERIFY(fresh_tables(&t, &z, &zero) == 6);
    VERIFY(fresh_tables(&t, &z, &more) == 6 && t.clock.frequency == most);
    z.mailboxes = 1;
    VERIFY(fresh_tables(&t, &z, &more) == 14);
    z.slots[0] = 17;
    VERIFY(fresh_tables(&t, &z, NULL) == 14);
    z.slots[0] = 16;
    VERIFY(fresh_tables(&t, &z, NULL) == 0 && tables_hang_together(&t));
    z.threads = 17;
    VERIFY(fresh_tables(&t, &z, NULL) == 14);
}

void check_refusals(void)
{
    check_refusal_order();
    check_idle();
    check_fresh();
}
