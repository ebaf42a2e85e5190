/*
 * A trace written and read back: what a plant did is kept as bytes, and a
 * second plant that is given them comes to the very same tables.
 */
#include "nil.h"

#include <stdio.h>
#include <string.h>

static const nil_request steps[] = {
    { NIL_SEMAPHORE_WAIT, 0, 0, 0, 0, 3 },
    { NIL_SIGNAL, 1, 0, 0, 0, 0 },
    { NIL_SEMAPHORE_WAIT, 0, 0, 0, 0, 2 },
    { NIL_TICK, NIL_INTERRUPT, 0, 0, 0, 0 },
    { NIL_TICK, NIL_INTERRUPT, 0, 0, 0, 0 }
};
enum { STEPS = sizeof steps / sizeof steps[0] };

/* Ticks a second, as the firmware was compiled with them. */
#define FREQUENCY UINT32_C(1000)

struct plant {
    nil_tables tables;
    nil_clock clock;
};

/* Makes the steps, and writes each down before it is made. Returns the trace's
   length, or 0 where something is refused. */
static size_t play(struct plant *p, uint8_t *trace, size_t room)
{
    static const nil_sizes sizes = { 2, 1, 0, 0, 0, 0, { 0, 0, 0, 0 } };
    nil_result r;
    size_t at;

    if (nil_fresh(&p->tables, &p->clock, &sizes, FREQUENCY) != 0
        || nil_write_sizes(trace, room, &sizes, &at) != 0) {
        return 0;
    }
    for (size_t k = 0; k < STEPS; k++) {
        if (nil_write_step(trace, room, at, &steps[k], &at) != 0) {
            return 0;
        }
        nil_step(&p->tables, &p->clock, &steps[k], &r);
    }
    return at;
}

/* A read says what it found; nothing found, with code 0, is the end. */
static uint32_t replay(struct plant *p, const uint8_t *trace, size_t length)
{
    nil_read_result read;
    nil_result r;

    nil_read(trace, length, 0, &read);
    if (read.code == 0) {
        read.code = nil_fresh(&p->tables, &p->clock, &read.sizes, FREQUENCY);
    }
    while (read.code == 0) {
        nil_read(trace, length, read.next, &read);
        if (read.found != NIL_FOUND_STEP) {
            break;
        }
        nil_step(&p->tables, &p->clock, &read.step, &r);
        printf("%u %u %u %u %u\n", (unsigned)read.number, (unsigned)r.code,
               (unsigned)r.running, (unsigned)r.woken, (unsigned)r.finished);
    }
    return read.code;
}

int main(void)
{
    static struct plant first, second;
    static uint8_t trace[NIL_TRACE_HEAD + STEPS * NIL_STEP_RECORD];
    size_t length;

    if (!NIL_LAYOUT_FITS()
        || (length = play(&first, trace, sizeof trace)) == 0
        || replay(&second, trace, length) != 0) {
        return 1;
    }
    printf("%u bytes, tables and clock %s\n", (unsigned)length,
           memcmp(&first, &second, sizeof first) == 0 ? "the same"
                                                      : "DIFFERENT");
    printf("cut short: code %u\n",
           (unsigned)replay(&second, trace, length - 1));
    /* what was printed may not have arrived */
    return fflush(stdout) == 0 ? 0 : 1;
}
