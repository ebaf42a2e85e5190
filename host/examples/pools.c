/*
 * A guarded pool: two trays for two packers. Objects are numbers here; the host
 * keeps what each of them is, as `trays` does. A packer that finds no tray
 * waits for one, and is handed the one that the other gives back.
 */
#include "nil.h"

#include <stdio.h>

enum { FIRST, SECOND, THREADS };
enum { TRAYS }; /* pools */

static const char *const trays[] = { "the red tray", "the blue tray" };

/* Ticks a second, as the firmware was compiled with them. */
#define FREQUENCY UINT32_C(1000)

static nil_tables tables;
static nil_clock clock;

static nil_result step(uint8_t kind, uint8_t caller, uint32_t a,
                       uint32_t timeout)
{
    nil_request request = { kind, caller, TRAYS, 0, a, timeout };
    nil_result result;

    nil_step(&tables, &clock, &request, &result);
    return result;
}

static void say(const char *what, nil_result r)
{
    printf("%-30s code %u, running %u, free %u, counter %d\n", what,
           (unsigned)r.code, (unsigned)r.running,
           (unsigned)tables.pools[TRAYS].length,
           (int)tables.counters[NIL_POOL_PLACE + TRAYS]);
}

static void say_taken(const char *who, uint8_t thread)
{
    printf("%s has %s\n", who, trays[tables.threads[thread].answer.datum]);
}

int main(void)
{
    static const nil_sizes sizes = { THREADS, 0, 0, 0, 0, 1, { 0, 0, 0, 0 } };

    if (!NIL_LAYOUT_FITS()
        || nil_fresh(&tables, &clock, &sizes, FREQUENCY) != 0) {
        return 1;
    }
    say("add the red tray", step(NIL_ADD, NIL_INTERRUPT, 0, 0));
    say("add the blue tray", step(NIL_ADD, NIL_INTERRUPT, 1, 0));
    say("add it once more", step(NIL_ADD, NIL_INTERRUPT, 1, 0));
    say("the first packer takes one", step(NIL_ALLOC, FIRST, 0, NIL_INFINITE));
    say_taken("the first packer", FIRST);
    say("and one more", step(NIL_ALLOC, FIRST, 0, NIL_INFINITE));
    say_taken("the first packer", FIRST);
    say("it sleeps", step(NIL_SLEEP_FOR, FIRST, 0, 9));
    say("the second packer has to wait",
        step(NIL_ALLOC, SECOND, 0, NIL_INFINITE));
    say("the red tray comes back", step(NIL_FREE, NIL_INTERRUPT, 0, 0));
    say_taken("the second packer", SECOND);
    say("a tray that nobody has", step(NIL_FREE, NIL_INTERRUPT, 5, 0));
    /* what was printed may not have arrived */
    return fflush(stdout) == 0 ? 0 : 1;
}
