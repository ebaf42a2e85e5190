/*
 * A mailbox between an interrupt and a thread: a scale's interrupt posts
 * weights, which the recorder's thread fetches. The interrupt cannot wait: it
 * posts with timeout 0 and counts what finds no room.
 */
#include "nil.h"

#include <stdio.h>

enum { RECORDER, THREADS };
enum { WEIGHTS }; /* mailboxes */

/* Ticks a second, as the firmware was compiled with them. */
#define FREQUENCY UINT32_C(1000)

static nil_tables tables;
static nil_clock clock;
static unsigned lost;

static nil_result step(uint8_t kind, uint8_t caller, uint32_t a,
                       uint32_t timeout)
{
    nil_request request = { kind, caller, WEIGHTS, 0, a, timeout };
    nil_result result;

    nil_step(&tables, &clock, &request, &result);
    return result;
}

/* A weight may be below 0: `a` has its 32 bits, and so has the datum. */
static nil_result weigh(int32_t grams)
{
    nil_result r = step(NIL_POST, NIL_INTERRUPT, (uint32_t)grams,
                        NIL_IMMEDIATE);

    lost += r.message == NIL_TIMEOUT;
    return r;
}

/* The recorder's code: it runs while the result says so, and fetches on. */
static void record(nil_result r)
{
    while (r.code == 0 && r.running == RECORDER) {
        nil_answer last = tables.threads[RECORDER].answer;

        if (last.message == NIL_OK) {
            printf("recorded %d g\n", (int)(int32_t)last.datum);
        } else {
            printf("no weight: message %d\n", (int)last.message);
        }
        r = step(NIL_FETCH, RECORDER, 0, 2);
    }
}

int main(void)
{
    static const nil_sizes sizes = { THREADS, 0, 0, 0, 1, 0, { 2, 0, 0, 0 } };

    if (!NIL_LAYOUT_FITS()
        || nil_fresh(&tables, &clock, &sizes, FREQUENCY) != 0) {
        return 1;
    }
    /* its first fetch finds nothing, and it sleeps */
    step(NIL_FETCH, RECORDER, 0, 2);
    record(weigh(120));
    record(weigh(-3));
    record(step(NIL_TICK, NIL_INTERRUPT, 0, 0));
    record(step(NIL_TICK, NIL_INTERRUPT, 0, 0));
    /* busy with a first weight, it leaves three to a mailbox of two slots */
    weigh(1);
    weigh(2);
    weigh(3);
    weigh(4);
    printf("lost %u, waiting %u\n", lost,
           (unsigned)tables.mailboxes[WEIGHTS].count);
    /* what was printed may not have arrived */
    return fflush(stdout) == 0 ? 0 : 1;
}
