/*
 * Events: a conveyor's thread waits for any of its flags, with a timeout. A
 * sensor's interrupt signals them. A scale's thread is above the conveyor's: as
 * long as it runs, a conveyor that was woken does not. Its wait goes on when it
 * next runs, and answers all flags that came until then. After a timeout it
 * answers none; those that came late stay pending, as flags that nobody awaits
 * do, and the next wait has them at once.
 */
#include "nil.h"

#include <stdio.h>

enum { SCALE, CONVEYOR, THREADS };
enum { FULL = 1, STUCK = 2, EMPTY = 4 };

/* Ticks a second, as the firmware was compiled with them. */
#define FREQUENCY UINT32_C(1000)

static nil_tables tables;
static nil_clock clock;

static nil_result step(uint8_t kind, uint8_t caller, uint8_t object,
                       uint32_t a, uint32_t timeout)
{
    nil_request request = { kind, caller, object, 0, a, timeout };
    nil_result result;

    nil_step(&tables, &clock, &request, &result);
    return result;
}

/* A wait that does not sleep is answered in its own step, one that sleeps in
   the step in which its thread comes to run again: both times the answer stands
   in the thread's row. */
static void say(const char *what, nil_result r)
{
    const nil_thread *conveyor = &tables.threads[CONVEYOR];

    printf("%-26s  code %u, ", what, (unsigned)r.code);
    if (conveyor->state == NIL_AWAITING) {
        printf("the conveyor waits\n");
    } else if (conveyor->call.kind != 0) {
        printf("the conveyor is ready, pending flags %u\n",
               (unsigned)conveyor->pending);
    } else {
        printf("message %d, flags %u\n", (int)conveyor->answer.message,
               (unsigned)conveyor->answer.datum);
    }
}

static nil_result conveyor_waits(uint32_t mask, uint32_t timeout)
{
    return step(NIL_EVENT_WAIT, CONVEYOR, 0, mask, timeout);
}

static nil_result sensor_signals(uint32_t flags)
{
    return step(NIL_EVENT_SIGNAL, NIL_INTERRUPT, CONVEYOR, flags, 0);
}

/* So the conveyor runs, until the next tick. */
static nil_result scale_sleeps(void)
{
    return step(NIL_SLEEP_FOR, SCALE, 0, 0, 1);
}

static nil_result tick(void)
{
    return step(NIL_TICK, NIL_INTERRUPT, 0, 0, 0);
}

int main(void)
{
    static const nil_sizes sizes = { THREADS, 0, 0, 0, 0, 0, { 0, 0, 0, 0 } };
    uint32_t all = FULL | STUCK | EMPTY;

    if (!NIL_LAYOUT_FITS()
        || nil_fresh(&tables, &clock, &sizes, FREQUENCY) != 0
        || scale_sleeps().running != CONVEYOR) {
        return 1;
    }
    say("wait for full or stuck", conveyor_waits(FULL | STUCK, 3));
    say("empty, which it awaits not", sensor_signals(EMPTY));
    say("a tick, the scale runs", tick());
    say("full", sensor_signals(FULL));
    say("stuck, before it runs", sensor_signals(STUCK));
    say("the scale sleeps", scale_sleeps());
    say("wait for any", conveyor_waits(all, 3));
    say("wait for any again", conveyor_waits(all, 1));
    say("a tick, the scale runs", tick());
    say("stuck, after the timeout", sensor_signals(STUCK));
    say("the scale sleeps", scale_sleeps());
    say("wait for any", conveyor_waits(all, 3));
    say("wait for nothing", conveyor_waits(0, 3));
    /* what was printed may not have arrived */
    return fflush(stdout) == 0 ? 0 : 1;
}
