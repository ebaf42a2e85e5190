/*
 * The comparison: compare [STEPS [TABLES [SEED]]]. Drives the archive beside
 * the second program, with STEPS steps of the random traces that ./fuzz has,
 * read and written back through the archive too, and with one step on each of
 * TABLES damaged tables, of which both say which rule is broken first; and for
 * each of these the nine functions of time. A damage that is an event wait has
 * further steps, until the wait has gone on; one that takes a semaphore near
 * the top has signals there, and one that takes the step number near its end
 * has steps beyond it. Some traces and plants begin near that end. At each step
 * the archive also says for a screen who is ready and who waits where. Then
 * STEPS calls on byte pipes that live, and one on each of TABLES pipes from
 * outside. It stops at the first answer or byte that differs.
 *
 * Seeds count up from SEED: one for each trace, then one for each plant whose
 * tables are damaged, and then those of the pipes.
 */
#include "director.h"
#include "odd.h"
#include "piping.h"
#include "scenario.h"
#include "spoil.h"
#include "times.h"
#include "traces.h"

#include <stdio.h>
#include <stdlib.h>
#include <string.h>

enum { PLANT_STEPS = 60, DAMAGES = 4, MANY = 20000 };

/* How many traces and plants begin late, and how near the end. */
enum { LATE_PERCENT = 20, LATE_STEPS = 100 };

/* How often each code was answered. */
static uint64_t read_codes[CODES];
static uint64_t fresh_codes[CODES];
static uint64_t step_codes[CODES];
static uint64_t table_codes[SPOIL_WAYS][CODES];

/* Some fresh tables count from near the last step number on. */
static void begin_late(struct random *r, nil_tables *t)
{
    if (random_chance(r, LATE_PERCENT)) {
        t->steps = LAST_STEP - random_below(r, LATE_STEPS);
    }
}

/* ---- random traces ---------------------------------------------------- */

/* Returns how many steps were made, at most as many as are wanted. */
static uint64_t run_trace(uint64_t seed, uint64_t wanted)
{
    static struct bytes trace, copy;
    static struct plant plant;
    struct course c = { &trace, { 0 }, 0, &copy };
    struct random random = { seed };
    struct where at = { seed, 0 };
    struct sizes z;
    struct step s;
    int code;

    make_scenario(seed, SHAPE_ANY, &trace);
    try_places(&random, at, &trace);
    code = both_open(at, &c, &z);
    if (code == 0) {
        both_fresh(at, &z, DEFAULT_FREQUENCY, &plant);
        begin_late(&random, &plant.tables);
    }
    while (code == 0 && at.number < wanted) {
        at.number++;
        code = both_next(at, &c, &s);
        if (code == 0) {
            step_codes[both_step(at, &plant, &s)]++;
        }
    }
    if (code != 0) {
        read_codes[code == TRACE_END ? 0 : code]++;
        at.number -= at.number > 0; /* the last number was no step's */
    }
    return at.number;
}

static uint64_t run_traces(uint64_t seed, uint64_t wanted)
{
    for (uint64_t done = 0; done < wanted; seed++) {
        done += run_trace(seed, wanted - done);
    }
    return seed;
}

/* ---- damaged tables --------------------------------------------------- */

static struct sizes some_sizes(struct random *r)
{
    struct sizes z = { 0 };

    z.threads = random_between(r, 1, MAX_THREADS);
    z.semaphores = random_below(r, MAX_SEMAPHORES + 1);
    z.queues = random_below(r, MAX_QUEUES + 1);
    z.references = random_below(r, MAX_REFERENCES + 1);
    z.mailboxes = random_below(r, MAX_MAILBOXES + 1);
    z.pools = random_below(r, MAX_POOLS + 1);
    for (uint32_t m = 0; m < z.mailboxes; m++) {
        z.slots[m] = random_between(r, 1, MAX_SLOTS);
    }
    return z;
}

/* Sizes and a frequency that may be refused, over whatever is there. */
static void try_fresh(struct random *r, struct where at, struct sizes z,
                      struct plant *plant)
{
    static const uint32_t frequency[] = {
        0, 1, DEFAULT_FREQUENCY, MAX_FREQUENCY, MAX_FREQUENCY + 1, UINT32_MAX
    };
    uint32_t *const size[] = {
        &z.threads, &z.semaphores, &z.queues, &z.references, &z.mailboxes,
        &z.pools, &z.slots[0], &z.slots[1], &z.slots[2], &z.slots[3]
    };
    uint32_t which = random_below(r, sizeof size / sizeof size[0]);
    uint32_t given = frequency[random_below(r, 6)];

    *size[which] = random_chance(r, 80) ? random_below(r, 19)
                                        : random_below(r, 65536);
    try_buffers(r, at, &z);
    fresh_codes[both_fresh(at, &z, given, plant)]++;
}

/* Nearly half of them one field: there the rules are told apart best. */
static uint32_t some_way(struct random *r)
{
    return random_chance(r, 40) ? ONE_FIELD : random_below(r, SPOIL_WAYS);
}

/* The step is chosen for the good tables; the damaged ones must refuse it or
   make it just as the second program does. An event wait then goes on, a
   semaphore near the top is signalled, and a late step number comes to its
   end. */
static void step_on_damaged(struct random *r, struct where at,
                            const struct plant *good, const struct step *s)
{
    struct plant damaged = *good;
    uint32_t way = some_way(r), code;

    spoil(r, way, &damaged);
    try_times(at);
    code = both_step(at, &damaged, s);
    expect(spoil_allows(way, code), at, "a damage was judged wrongly");
    table_codes[way][code]++;
    if (way == SEMAPHORE_TOP) {
        signal_tops(r, at, &damaged);
    }
    if (way == LAST_NUMBERS) {
        count_to_end(at, &damaged);
    }
    if (way >= WAIT_NO_FLAG && code != BROKEN_TABLES) {
        let_go_on(r, at, &damaged);
    }
}

/* A plant lives on between its damages. Returns how many there were. */
static uint64_t run_plant(uint64_t seed, uint64_t wanted)
{
    struct random random = { seed };
    struct sizes z = some_sizes(&random);
    struct director d = new_director(&random, FAMILIES, 10);
    struct where at = { seed, 0 };
    struct plant plant;
    struct tables t;

    memset(&plant, 0xee, sizeof plant);
    try_fresh(&random, at, z, &plant);
    both_fresh(at, &z, random_between(&random, 1, MAX_FREQUENCY), &plant);
    begin_late(&random, &plant.tables);
    for (uint32_t k = 0; k < PLANT_STEPS && at.number < wanted; k++) {
        struct step s;

        to_second(&plant.tables, &plant.clock, &t);
        s = next_step(&d, &t);
        for (uint32_t n = 0; n < DAMAGES && at.number < wanted; n++) {
            at.number++;
            step_on_damaged(&random, at, &plant, &s);
        }
        both_step(at, &plant, &s);
    }
    return at.number;
}

static uint64_t run_plants(uint64_t seed, uint64_t wanted)
{
    for (uint64_t done = 0; done < wanted; seed++) {
        done += run_plant(seed, wanted - done);
    }
    return seed;
}

/* ---- report ----------------------------------------------------------- */

static void print_codes(const char *name, const uint64_t *codes)
{
    uint64_t sum = 0;

    printf("  %-22s", name);
    for (uint32_t k = 0; k <= BAD_MOMENT; k++) {
        printf(" %7llu", (unsigned long long)codes[k]);
        sum += codes[k];
    }
    printf(" %8llu\n", (unsigned long long)sum);
}

static void print_heading(void)
{
    printf("  %-22s", "code");
    for (uint32_t k = 0; k <= BAD_MOMENT; k++) {
        printf(" %7u", (unsigned)k);
    }
    printf(" %8s\n", "all");
}

static void report_tables(void)
{
    uint64_t sum[CODES] = { 0 };

    for (uint32_t way = 0; way < SPOIL_WAYS; way++) {
        print_codes(spoil_name(way), table_codes[way]);
        for (uint32_t k = 0; k < CODES; k++) {
            sum[k] += table_codes[way][k];
        }
    }
    print_codes("damaged tables", sum);
}

/* Which of `count` numbers were met, and how often. */
static void print_met(const char *name, const char *what,
                      const uint64_t *met, uint32_t count)
{
    const char *between = "";

    printf("  %s:", name);
    for (uint32_t k = 0; k < count; k++) {
        if (met[k] > 0) {
            printf("%s %s %u %llu", between, what, (unsigned)k,
                   (unsigned long long)met[k]);
            between = ",";
        }
    }
    printf("\n");
}

/* With 0 and with another message; how many then answered no flag, and how many
   left flags of their mask pending. */
static void print_waits(void)
{
    printf("  event waits gone on: %llu with 0, %llu of them without a flag; "
           "%llu with another message, %llu of them with flags kept\n",
           (unsigned long long)event_waits.woken,
           (unsigned long long)event_waits.empty,
           (unsigned long long)event_waits.timed_out,
           (unsigned long long)event_waits.kept);
}

/* What came of each kind of call. */
static void print_pipe_calls(void)
{
    static const char *const kinds[PIPE_KINDS] = { "write", "read", "reset",
                                                   "resume" };
    static const char *const outcomes[PIPE_OUTCOMES] = {
        "done", "wrapped", "none", "-2", "5", "6"
    };

    printf("  %-22s", "pipe calls");
    for (uint32_t k = 0; k < PIPE_OUTCOMES; k++) {
        printf(" %7s", outcomes[k]);
    }
    for (uint32_t kind = 0; kind < PIPE_KINDS; kind++) {
        printf("\n  %-22s", kinds[kind]);
        for (uint32_t k = 0; k < PIPE_OUTCOMES; k++) {
            printf(" %7llu", (unsigned long long)pipe_calls[kind][k]);
        }
    }
    printf("\n");
}

static void report(void)
{
    print_heading();
    print_codes("random steps", step_codes);
    report_tables();
    for (uint32_t way = 0; way < PIPE_WAYS; way++) {
        print_codes(pipe_way_name(way), pipe_codes[way]);
    }
    print_pipe_calls();
    print_met("traces read", "code", read_codes, CODES);
    print_met("fresh tables asked for", "code", fresh_codes, CODES);
    print_met("fresh pipes asked for", "code", pipe_fresh_codes, CODES);
    print_met("broken first", "rule", broken_rules, RULES);
    print_waits();
    printf("  ");
    print_signals(&top_signals);
    printf("  ");
    print_wakings(&wakings);
    printf("  ");
    print_kept(&wakings);
    printf("  conversions: %llu made, %llu refused\n",
           (unsigned long long)conversions[0],
           (unsigned long long)conversions[1]);
}

static void expect_signals_met(struct where at)
{
    expect(top_signals.by_threads > 0 && top_signals.by_interrupts > 0
           && top_signals.below > 0, at,
           "no signal came at the top, or none one below it");
    expect(table_codes[SEMAPHORE_TOP][0] > 0
           && table_codes[POOL_TOP][BROKEN_TABLES] > 0, at,
           "no counter came near the top");
}

static void expect_causes_met(struct where at)
{
    for (uint32_t cause = BY_SIGNAL; cause < CAUSES; cause++) {
        expect(wakings.by[cause] > 0, at, "nobody woke by some cause");
    }
    expect(wakings.settled > 0 && wakings.settled_none > 0, at,
           "no continued call woke anybody");
    expect(wakings.reached > 0 && wakings.last > 0, at,
           "no step number came to its end");
    expect(table_codes[CAUSE_OUTSIDE][BROKEN_TABLES] > 0
           && table_codes[CAUSE_OTHER][0] > 0, at,
           "no cause came from outside");
}

static bool read_number(const char *text, uint64_t *number)
{
    char *end;

    *number = strtoull(text, &end, 10);
    return text[0] >= '0' && text[0] <= '9' && *end == '\0';
}

int main(int argc, char **argv)
{
    uint64_t given[] = { 100000, 100000, 1 };
    uint64_t plants, pipes, odd, end;

    for (int k = 1; k < argc; k++) {
        if (k > 3 || !read_number(argv[k], &given[k - 1])) {
            fputs("usage: compare [STEPS [TABLES [SEED]]]\n", stderr);
            return 2;
        }
    }
    plants = run_traces(given[2], given[0]);
    pipes = run_plants(plants, given[1]);
    odd = run_pipes(pipes, given[0]);
    end = run_odd_pipes(odd, given[1]);
    /* a short run need not meet all */
    if (given[0] >= MANY && given[1] >= MANY) {
        expect_signals_met((struct where){ end - 1, 0 });
        expect_causes_met((struct where){ end - 1, 0 });
        expect_pipes_met((struct where){ end - 1, 0 });
    }
    printf("compare: seeds %llu to %llu: traces, from %llu on plants, from "
           "%llu on pipes, from %llu on pipes from outside; all answers and "
           "bytes equal\n", (unsigned long long)given[2],
           (unsigned long long)end - 1, (unsigned long long)plants,
           (unsigned long long)pipes, (unsigned long long)odd);
    report();
    return fflush(stdout) == 0 ? 0 : 1;
}
