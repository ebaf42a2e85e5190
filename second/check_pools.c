/* Hand-worked cases: pools. */
#include "check.h"

static void check_pool(void)
{
    START("pool", 0, 1, 0, 0, 0, 0, 1);
    DO(20, 0, 0, 0, 0, 0, 0, 0, 1, -1, 0);
    DO(21, 0, 0, 3, 0, 7, 0, 0, 0, 0, 0);
    DO(22, 0, 0, 32, 0, 6, 0, 0, 0, 0, 0);
    DO(22, 0, 0, 31, 0, 0, 0, 0, 1, 0, 0);
    DO(22, FF, 0, 31, 0, 7, 0, 0, 0, 0, 0);
    DO(21, FF, 0, 31, 0, 7, 0, 0, 0, 0, 0);
    DO(22, FF, 0, 5, 0, 0, 0, 0, 0, 0, 0);
    VERIFY(t.pool[0].counter == 2 && t.pool[0].length == 2);
    DO(20, FF, 0, 0, 1, 4, 0, 0, 0, 0, 0);
    DO(20, FF, 0, 0, 0, 0, 0, 0, 0, 0, 5);
    DO(20, 0, 0, 0, INFINITE, 0, 0, 0, 1, 0, 31);
    VERIFY(t.pool[0].mark[31] == OUT && t.pool[0].mark[5] == OUT);
    DO(21, 0, 0, 5, 0, 0, 0, 0, 1, 0, 0);
    VERIFY(t.pool[0].mark[5] == FREE && t.pool[0].list[0] == 5);
    DO(22, 0, 0, 31, 0, 7, 0, 0, 0, 0, 0);
}

static void check_pool_promise(void)
{
    START("an object is promised to the woken thread", 0, 2, 0, 0, 0, 0, 1);
    DO(22, FF, 0, 4, 0, 0, 0, 0, 0, 0, 0);
    DO(20, 0, 0, 0, 0, 0, 0, 0, 1, 0, 4);
    DO(11, 0, 0, 0, 1, 0, 1, 0, 0, 0, 0);
    DO(20, 1, 0, 7, INFINITE, 0, 255, 0, 0, 0, 0);
    VERIFY(waits(1, QUEUED, AT_POOL, 0) && call_is(1, 20, 0, 0, INFINITE));
    ticks(1);
    DO(21, 0, 0, 4, 0, 0, 0, 2, 1, 0, 0);
    VERIFY(t.pool[0].counter == 0 && t.pool[0].length == 1);
    VERIFY(t.pool[0].mark[4] == FREE);
    DO(20, 0, 0, 0, 0, 0, 0, 0, 1, -1, 0);
    DO(20, FF, 0, 0, 0, 0, 0, 0, 0, -1, 0);
    DO(20, 0, 0, 0, 3, 0, 1, 0, 2, 0, 0);
    VERIFY(last_is(1, 0, 4) && t.pool[0].mark[4] == OUT);
    VERIFY(t.pool[0].counter == -1 && t.pool[0].length == 0);
    /* The next object goes to the one that waits; it takes the then top. */
    DO(22, 1, 0, 9, 0, 0, 0, 1, 3, 0, 0);
    VERIFY(last_is(0, 0, 9) && t.pool[0].counter == 0);
}

/* Two objects come back before the woken thread runs: it takes the top. */
static void check_pool_then_top(void)
{
    START("the woken thread takes the then top", 0, 2, 0, 0, 0, 0, 1);
    DO(11, 0, 0, 0, 1, 0, 1, 0, 0, 0, 0);
    DO(20, 1, 0, 0, 2, 0, 255, 0, 0, 0, 0);
    ticks(1);
    DO(22, 0, 0, 1, 0, 0, 0, 2, 1, 0, 0);
    DO(22, 0, 0, 2, 0, 0, 0, 0, 1, 0, 0);
    VERIFY(t.pool[0].counter == 1 && t.pool[0].length == 2);
    DO(11, 0, 0, 0, 9, 0, 1, 0, 2, 0, 0);
    VERIFY(last_is(1, 0, 2) && t.pool[0].counter == 1);
    DO(20, 1, 0, 0, 1, 0, 1, 0, 2, 0, 1);
    DO(20, 1, 0, 0, 1, 0, 255, 0, 0, 0, 0);
    VERIFY(t.pool[0].counter == -1);
    DO(1, FF, 0, 0, 0, 0, 1, 2, 2, 0, 0);
    VERIFY(t.pool[0].counter == 0 && last_is(1, -1, 0));
}

void check_pools(void)
{
    check_pool();
    check_pool_promise();
    check_pool_then_top();
}
