/*
 * The bench: bench [STEPS [ROUNDS [SEED]]]. The time of a step through the
 * archive beside the second program's, on the same steps in one process, for
 * 1, 4 and 16 threads; and of the archive the slowest single step. Both sides
 * test at each step whether the tables hang together. Every answer is compared
 * once before anything is timed. Then a pipe's transfers, STEPS a round.
 *
 * The clock counts this process's own work, and of several rounds the
 * shortest counts, of a single step too: so other work on the machine shows as
 * little as can be.
 */
#include "bench.h"
#include "bridge.h"
#include "director.h"

#include <stdio.h>
#include <stdlib.h>
#include <time.h>

enum { MAX_STEPS = 100000, WILD_PERCENT = 5, SIDES = 2 };

enum side { PROVED, SECOND };

struct load {
    const char *name;
    void (*record)(uint64_t seed, const struct sizes *z);
    struct sizes sizes; /* the number of threads is set per run */
};

static const uint32_t THREADS[] = { 1, 4, 16 };

/* The same steps, as each side wants them. */
static struct step steps[MAX_STEPS];
static nil_request requests[MAX_STEPS];
static uint32_t number;

static void record_random(uint64_t seed, const struct sizes *z)
{
    struct random random = { seed };
    struct director d = new_director(&random, FAMILIES, WILD_PERCENT);
    struct tables t;

    fresh_tables(&t, z, NULL);
    for (uint32_t k = 0; k < number; k++) {
        steps[k] = next_step(&d, &t);
        do_step(&t, &steps[k]);
    }
}

/* Every thread goes to sleep for a tick, which then wakes them all. */
static void record_crowd(uint64_t seed, const struct sizes *z)
{
    static const struct step tick = { TICK, INTERRUPT, 0, 0, 0 };

    (void)seed;
    for (uint32_t k = 0; k < number; k++) {
        uint32_t i = k % (z->threads + 1);
        struct step sleep = { SLEEP_FOR, (uint8_t)i, 0, 0, 1 };

        steps[k] = i < z->threads ? sleep : tick;
    }
}

/* All threads wait at a mailbox. Thread 0 gets a message, posts one for each of
   the others, takes these itself and waits again: in that last step each of
   the others finds none and goes to sleep again. */
static void record_chain(uint64_t seed, const struct sizes *z)
{
    uint32_t t = z->threads;

    (void)seed;
    for (uint32_t k = 0; k < number; k++) {
        uint32_t turn = k < t ? 2 * t - 1 : (k - t) % (2 * t);
        struct step post = { POST, turn == 0 ? INTERRUPT : 0, 0, k, 0 };
        struct step fetch = { FETCH, 0, 0, 0, 0 };

        if (turn == 2 * t - 1) {
            fetch.caller = k < t ? (uint8_t)k : 0;
            fetch.timeout = INFINITE;
        }
        steps[k] = turn < t ? post : fetch;
    }
}

/* As many objects as there may be, a small plant's few, the most that one tick
   can wake, and the most calls that a step continues. */
static const struct load LOADS[] = {
    { "random steps, all objects", record_random,
      { 0, 16, 8, 8, 4, 4, { 16, 16, 16, 16 } } },
    { "random steps, few objects", record_random,
      { 0, 3, 1, 2, 1, 1, { 4, 0, 0, 0 } } },
    { "all sleep, one tick wakes all; no objects", record_crowd,
      { 0, 0, 0, 0, 0, 0, { 0, 0, 0, 0 } } },
    { "all at one mailbox, one step continues all but one", record_chain,
      { 0, 0, 0, 0, 1, 0, { 16, 0, 0, 0 } } }
};

static void translate(void)
{
    for (uint32_t k = 0; k < number; k++) {
        requests[k] = nil_request_of(&steps[k]);
    }
}

static void begin(const struct sizes *z, nil_tables *t, nil_clock *c)
{
    nil_sizes sizes = nil_sizes_of(z);

    nil_fresh(t, c, &sizes, DEFAULT_FREQUENCY);
}

static void play_proved(const struct sizes *z)
{
    nil_tables t;
    nil_clock c;
    nil_result r;

    begin(z, &t, &c);
    for (uint32_t k = 0; k < number; k++) {
        nil_step(&t, &c, &requests[k], &r);
    }
}

static void play_second(const struct sizes *z)
{
    struct tables t;

    fresh_tables(&t, z, NULL);
    for (uint32_t k = 0; k < number; k++) {
        do_step(&t, &steps[k]);
    }
}

/* The two sides are to do the same work: every answer is held to the other. */
static void expect_same_answers(const struct sizes *z)
{
    nil_tables t;
    nil_clock c;
    nil_result r;
    struct tables u;

    begin(z, &t, &c);
    fresh_tables(&u, z, NULL);
    for (uint32_t k = 0; k < number; k++) {
        struct result q = do_step(&u, &steps[k]);

        nil_step(&t, &c, &requests[k], &r);
        if (r.code != q.code || r.running != q.running || r.woken != q.woken
            || r.finished != q.finished || r.message != q.answer.message
            || r.datum != q.answer.datum) {
            printf("bench: step %u: the answers differ\n", (unsigned)k);
            exit(1);
        }
    }
}

double seconds(void)
{
    struct timespec s;

    clock_gettime(CLOCK_PROCESS_CPUTIME_ID, &s);
    return (double)s.tv_sec + (double)s.tv_nsec * 1e-9;
}

/* Nanoseconds a step: the shortest of the rounds. */
static double time_of(void (*play)(const struct sizes *),
                      const struct sizes *z, uint32_t rounds)
{
    double best = 0;

    for (uint32_t k = 0; k < rounds; k++) {
        double began = seconds();
        double took;

        play(z);
        took = (seconds() - began) * 1e9 / number;
        if (k == 0 || took < best) {
            best = took;
        }
    }
    return best;
}

/* Each step's own time is the shortest of the rounds; the longest of these.
   What reading the clock takes is taken off. */
static double worst_of(const struct sizes *z, uint32_t rounds)
{
    static double best[MAX_STEPS];
    double clock_itself = 1, worst = 0;
    nil_tables t;
    nil_clock c;
    nil_result r;

    for (uint32_t n = 0; n < rounds; n++) {
        begin(z, &t, &c);
        for (uint32_t k = 0; k < number; k++) {
            double began = seconds(), took, none;

            nil_step(&t, &c, &requests[k], &r);
            took = seconds() - began;
            none = seconds();
            none = seconds() - none;
            best[k] = n == 0 || took < best[k] ? took : best[k];
            clock_itself = none < clock_itself ? none : clock_itself;
        }
    }
    for (uint32_t k = 0; k < number; k++) {
        worst = best[k] > worst ? best[k] : worst;
    }
    return (worst - clock_itself) * 1e9;
}

static void measure(const struct load *load, uint64_t seed, uint32_t rounds)
{
    enum { CASES = sizeof THREADS / sizeof THREADS[0] };
    double took[CASES][SIDES];

    printf("%s\n%8s %12s %12s %7s %12s\n", load->name, "threads", "proved ns",
           "second ns", "ratio", "slowest ns");
    for (uint32_t k = 0; k < CASES; k++) {
        struct sizes z = load->sizes;

        z.threads = THREADS[k];
        load->record(seed, &z);
        translate();
        expect_same_answers(&z);
        took[k][PROVED] = time_of(play_proved, &z, rounds);
        took[k][SECOND] = time_of(play_second, &z, rounds);
        printf("%8u %12.0f %12.0f %7.2f %12.0f\n", (unsigned)z.threads,
               took[k][PROVED], took[k][SECOND],
               took[k][PROVED] / took[k][SECOND], worst_of(&z, rounds));
    }
    printf("  growth %12.2f %12.2f\n",
           took[CASES - 1][PROVED] / took[0][PROVED],
           took[CASES - 1][SECOND] / took[0][SECOND]);
}

int main(int argc, char **argv)
{
    unsigned long count = argc > 1 ? strtoul(argv[1], NULL, 10) : 5000;
    unsigned long rounds = argc > 2 ? strtoul(argv[2], NULL, 10) : 10;
    uint64_t seed = argc > 3 ? strtoull(argv[3], NULL, 10) : 1;

    if (argc > 4 || count < 1 || count > MAX_STEPS || rounds < 1) {
        fputs("usage: bench [STEPS [ROUNDS [SEED]]], at most 100000 STEPS\n",
              stderr);
        return 2;
    }
    number = (uint32_t)count;
    for (size_t k = 0; k < sizeof LOADS / sizeof LOADS[0]; k++) {
        measure(&LOADS[k], seed, (uint32_t)rounds);
    }
    bench_pipes(number, (uint32_t)rounds);
    return fflush(stdout) == 0 ? 0 : 1;
}
