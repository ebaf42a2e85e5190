/*
 * A small plant through nil.h: a label printer and two fillers, a light
 * barrier that sees bottles come, and a tick from a loop. Each thread is the
 * translated code of one firmware thread: run_printer and run_filler go on
 * where the thread stood, up to its next kernel call, and make that call.
 *
 * Thread 0 is the printer, the highest in priority. A filler waits for a bottle
 * (semaphore BOTTLES), fills it for some ticks, and posts its number to the
 * printer (mailbox LABELS, of one slot). The printer takes four ticks a label, so
 * that the fillers come to wait for it.
 */
#include "nil.h"

#include <stdio.h>
#include <string.h>

enum { PRINTER, FILLER_A, FILLER_B, THREADS };
enum { BOTTLES, TANK }; /* semaphores */
enum { LABELS };        /* mailboxes */

/* In ticks: the play, bottles' coming, work, and a filler's wait. */
enum {
    END = 30,
    BOTTLE_EACH = 2,
    LAST_BOTTLE = 10,
    FILLING = 3,
    PRINTING = 4,
    PATIENCE = 8
};

/* As the firmware was compiled with them: ticks a second, and the manual's
   number. */
#define FREQUENCY UINT32_C(1000)
#define TIME_INFINITE UINT32_C(0)

/* Where a thread's code stands: which of its calls is the next one. */
enum stage { ASKS, WORKS, HANDS_ON };

struct plant {
    nil_tables tables;
    nil_clock clock;
    enum stage stage[THREADS];
    uint32_t bottles; /* taken so far, and so the next bottle's number */
    uint32_t bottle[THREADS];
};

static const char *const NAMES[THREADS] = { "printer", "filler A", "filler B" };

/* A host stops where a step is refused: its own code is wrong then. Here the
   caller looks at the code. */
static nil_result step(struct plant *p, uint8_t kind, uint8_t caller,
                       uint8_t object, uint32_t a, uint32_t timeout)
{
    nil_request request = { kind, caller, object, 0, a, timeout };
    nil_result result;

    nil_step(&p->tables, &p->clock, &request, &result);
    return result;
}

static void say(const struct plant *p, uint32_t i, const char *what,
                uint32_t bottle)
{
    printf("%3u  %s %s", (unsigned)p->clock.time, NAMES[i], what);
    if (bottle > 0) {
        printf(" %u", (unsigned)bottle);
    }
    printf("\n");
}

/* Fetch a bottle's number, print for some ticks, and again. */
static nil_result run_printer(struct plant *p, uint32_t i, nil_answer last)
{
    if (p->stage[i] == WORKS) {
        p->stage[i] = ASKS;
        say(p, i, "prints the label of bottle", last.datum);
        return step(p, NIL_SLEEP_FOR, (uint8_t)i, 0, 0, PRINTING);
    }
    p->stage[i] = WORKS;
    return step(p, NIL_FETCH, (uint8_t)i, LABELS, 0,
                nil_timeout(TIME_INFINITE));
}

/* What the filler does once its wait for a bottle has ended. */
static nil_result fill_or_wait(struct plant *p, uint32_t i, nil_answer last)
{
    if (last.message == NIL_TIMEOUT) {
        say(p, i, "sees no bottle and waits on", 0);
        return step(p, NIL_SEMAPHORE_WAIT, (uint8_t)i, BOTTLES, 0, PATIENCE);
    }
    p->stage[i] = HANDS_ON;
    p->bottle[i] = ++p->bottles;
    say(p, i, "fills bottle", p->bottle[i]);
    return step(p, NIL_SLEEP_FOR, (uint8_t)i, 0, 0, FILLING);
}

/* Wait for a bottle, fill it, hand its number on, and again. */
static nil_result run_filler(struct plant *p, uint32_t i, nil_answer last)
{
    switch (p->stage[i]) {
    case WORKS:
        return fill_or_wait(p, i, last);
    case HANDS_ON:
        p->stage[i] = ASKS;
        say(p, i, "hands on bottle", p->bottle[i]);
        return step(p, NIL_POST, (uint8_t)i, LABELS, p->bottle[i],
                    nil_timeout(TIME_INFINITE));
    default:
        p->stage[i] = WORKS;
        if (p->bottle[i] > 0) {
            say(p, i, "is rid of bottle", p->bottle[i]);
        }
        return step(p, NIL_SEMAPHORE_WAIT, (uint8_t)i, BOTTLES, 0, PATIENCE);
    }
}

/* The running thread's code runs until its next call, then the next running
   thread's, until all wait. Returns 0, or the code of a refusal. */
static uint32_t run_threads(struct plant *p, uint32_t running)
{
    while (running != NIL_IDLE) {
        nil_answer last = p->tables.threads[running].answer;
        nil_result r = running == PRINTER ? run_printer(p, running, last)
                                          : run_filler(p, running, last);

        if (r.code != 0) {
            return r.code;
        }
        running = r.running;
    }
    return 0;
}

/* Interrupts: the tick, and at some ticks a bottle. */
static uint32_t run_interrupts(struct plant *p)
{
    nil_result r = step(p, NIL_TICK, NIL_INTERRUPT, 0, 0, 0);

    if (r.code == 0 && p->clock.time % BOTTLE_EACH == 0
        && p->clock.time <= LAST_BOTTLE) {
        printf("%3u  a bottle comes\n", (unsigned)p->clock.time);
        r = step(p, NIL_SIGNAL, NIL_INTERRUPT, BOTTLES, 0, 0);
    }
    return r.code != 0 ? r.code : run_threads(p, r.running);
}

/* A mistake of a host: a step of a thread that does not run. */
static void show_refusal(struct plant *p)
{
    struct plant before = *p;
    nil_result r = step(p, NIL_SIGNAL, FILLER_B, BOTTLES, 0, 0);

    printf("a step of a thread that does not run: code %u, tables and clock "
           "%s\n", (unsigned)r.code,
           memcmp(&before, p, sizeof before) == 0 ? "as they were" : "CHANGED");
}

/* Damage of a host: a counter is overwritten. A technician is told the rule and
   the row; docs/RULES.md has the words. */
static void show_damage(const struct plant *p)
{
    struct plant damaged = *p;
    nil_result r;
    uint32_t broken;

    damaged.tables.counters[NIL_SEMAPHORE_PLACE + BOTTLES] = 5;
    r = step(&damaged, NIL_TICK, NIL_INTERRUPT, 0, 0, 0);
    broken = nil_broken(&damaged.tables, &damaged.clock);
    printf("a counter overwritten: code %u, rule %u is broken at place %u\n",
           (unsigned)r.code, (unsigned)nil_rule(broken),
           (unsigned)nil_row(broken));
}

/* A sensor has signalled "tank present" for weeks, without a waiter: the last
   signal that counts, and one that the counter has no room for. */
static void show_top(struct plant *p)
{
    nil_result last, more;

    step(p, NIL_SEMAPHORE_RESET, NIL_INTERRUPT, TANK, 2147483646, 0);
    last = step(p, NIL_SIGNAL, NIL_INTERRUPT, TANK, 0, 0);
    more = step(p, NIL_SIGNAL, NIL_INTERRUPT, TANK, 0, 0);
    printf("tank present: message %d; once more: code %u, message %d%s; "
           "counter %d\n", (int)last.message, (unsigned)more.code,
           (int)more.message,
           more.message == NIL_NOT_COUNTED ? ", not counted" : "",
           (int)p->tables.counters[NIL_SEMAPHORE_PLACE + TANK]);
}

/* What an operators' screen polls: how many are ready, and who waits where, bit
   i for thread i. */
static void show_screen(const struct plant *p)
{
    uint32_t bottles = NIL_SEMAPHORE_PLACE + BOTTLES;
    uint32_t labels = NIL_READERS_PLACE + LABELS;

    printf("ready: %u, the first %u; waiting for bottles: %u, for labels: %u\n",
           (unsigned)nil_ready_count(&p->tables),
           (unsigned)nil_first_ready(&p->tables),
           (unsigned)nil_waiting(&p->tables, bottles),
           (unsigned)nil_waiting(&p->tables, labels));
}

/* What support staff ask: why each thread last went on. A bottle has just come,
   and a label that is printed for a test. */
static void show_why(const struct plant *p)
{
    static const char *const causes[] = {
        [NIL_CAUSE_NONE] = "nothing yet",
        [NIL_CAUSE_SIGNAL] = "a signal",
        [NIL_CAUSE_RELEASE] = "a release",
        [NIL_CAUSE_RESUME] = "a resume",
        [NIL_CAUSE_EVENT] = "an event",
        [NIL_CAUSE_POST] = "a post",
        [NIL_CAUSE_FETCH] = "a fetch",
        [NIL_CAUSE_RESET] = "a reset",
        [NIL_CAUSE_TICK] = "a tick"
    };
    struct plant later = *p;

    step(&later, NIL_SIGNAL, NIL_INTERRUPT, BOTTLES, 0, 0);
    step(&later, NIL_POST, NIL_INTERRUPT, LABELS, 99, 0);
    for (uint32_t i = 0; i < THREADS; i++) {
        const nil_thread *t = &later.tables.threads[i];

        printf("%s was last woken by %s, in step %u of %u\n", NAMES[i],
               causes[t->cause], (unsigned)t->step,
               (unsigned)later.tables.steps);
    }
}

/* Times of the firmware in ticks of the plant's clock, and back. */
static void show_time(const struct plant *p)
{
    uint32_t patience;
    uint64_t lasted;

    if (nil_ms2i(1500, p->clock.frequency, &patience) == 0
        && nil_i2us(p->clock.time, p->clock.frequency, &lasted) == 0) {
        printf("1500 ms are %u ticks; the play lasted %u us; 100 ticks on it "
               "is %u\n", (unsigned)patience, (unsigned)lasted,
               (unsigned)nil_time_add(p->clock.time, 100));
    }
}

int main(void)
{
    static const nil_sizes sizes = { THREADS, 2, 0, 0, 1, 0, { 1, 0, 0, 0 } };
    static struct plant plant; /* every thread's first call is what it ASKS */
    uint32_t code;

    if (!NIL_LAYOUT_FITS()) {
        printf("nil.h has layout %u, the archive %u\n", (unsigned)NIL_LAYOUT,
               (unsigned)nil_layout());
        return 1;
    }
    code = nil_fresh(&plant.tables, &plant.clock, &sizes, FREQUENCY);
    if (code == 0) {
        code = run_threads(&plant, PRINTER); /* all are ready at first */
    }
    while (code == 0 && plant.clock.time < END) {
        code = run_interrupts(&plant);
    }
    if (code != 0) {
        printf("refused with %u\n", (unsigned)code);
        return 1;
    }
    show_screen(&plant);
    show_refusal(&plant);
    show_damage(&plant);
    show_top(&plant);
    show_why(&plant);
    show_time(&plant);
    /* what was printed may not have arrived */
    return fflush(stdout) == 0 ? 0 : 1;
}
