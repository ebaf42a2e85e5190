/*
 * The soak: soak COUNT [SEED [SHAPE]]. Runs random traces through the reader
 * and the model and asserts what document 01 promises of every one of them:
 *   - from fresh tables every step, accepted or refused, leaves tables that
 *     hang together, and settling never exhausts its budget;
 *   - the running thread and the number of ready ones can be read from the
 *     ready word alone;
 *   - a call that slept is finished by being continued, and in no other way;
 *   - no event flag is lost, none is made up, and an event wait that goes on
 *     with 0 answers one at least;
 *   - a plain signal answers 1 exactly at the top, where it leaves all else;
 *     every other signal answers 0, and no pool gets to the top;
 *   - the step number is how many steps were accepted; a thread that was woken
 *     has the cause that goes with where it waited, and the step's number, and
 *     every other thread keeps both, from none and 0 on;
 *   - no message and no object is lost, and none is made up: the ledger of
 *     account.c is run over every step;
 *   - the list of what a step changed, applied to the tables before it, gives
 *     those after it, and is empty exactly where they are the same;
 *   - a refused step keeps all bytes and gives masks, message and datum 0;
 *   - a clean trace, read and written again, gives the same bytes.
 * At the end it prints what the traces covered.
 */
#include "cases.h"
#include "causes.h"
#include "flags.h"
#include "lists.h"
#include "scenario.h"
#include "signals.h"
#include "trace.h"

#include <inttypes.h>
#include <stdio.h>
#include <stdlib.h>
#include <string.h>

enum { CODES = 8, OTHER_KIND = POOL_ADD + 1, STOPS = 17 };

static struct {
    uint64_t traces;
    uint64_t steps;
    uint64_t by_kind[OTHER_KIND + 1][CODES];
    uint64_t stopped[STOPS];
    uint64_t clean;
    uint64_t retried_asleep;   /* a mailbox call that went to sleep again */
    uint64_t woken_asleep;     /* woken and asleep again in one step */
    uint64_t slept_finished;   /* caller slept and finished in one step */
    uint64_t promised_refused; /* alloc without object while one is listed */
    uint64_t unfinished_ready; /* steps that leave such a thread behind */
    uint32_t most_continued;
    uint32_t most_woken;
    uint32_t tightest_percent; /* of the budget */
    struct flags_seen flags;
    struct signals_seen signals;
    struct causes_seen causes;
    struct cases_seen cases;
    struct lists_seen lists;
} seen;

static struct account account;
static uint32_t accepted; /* steps of the trace so far */

static void fail(uint64_t seed, uint32_t record, const char *what)
{
    printf("seed %" PRIu64 " record %" PRIu32 ": %s\n", seed, record, what);
    exit(1);
}

static void expect(bool fine, uint64_t seed, uint32_t record, const char *what)
{
    if (!fine) {
        fail(seed, record, what);
    }
}

static uint32_t bits_in(uint32_t word)
{
    uint32_t n = 0;

    for (; word != 0; word &= word - 1) {
        n++;
    }
    return n;
}

/* ---- what the traces covered ------------------------------------------ */

static bool was_retried_asleep(const struct thread *before,
                               const struct thread *after)
{
    return before->state == READY && before->call.kind != 0
        && after->state != READY;
}

static void note_threads(const struct tables *before,
                         const struct tables *after, const struct result *r)
{
    bool left_behind = false;

    for (uint32_t i = 0; i < after->sizes.threads; i++) {
        const struct thread *th = &after->thread[i];

        seen.retried_asleep += was_retried_asleep(&before->thread[i], th);
        seen.woken_asleep += th->state != READY && (r->woken >> i & 1);
        left_behind |= th->state == READY && th->call.kind != 0;
    }
    seen.unfinished_ready += left_behind;
}

static void note_settling(const struct tables *t, const struct result *r)
{
    uint32_t percent = 100 * r->continued / settling_budget(t);

    if (r->continued > seen.most_continued) {
        seen.most_continued = r->continued;
    }
    if (percent > seen.tightest_percent) {
        seen.tightest_percent = percent;
    }
    if (bits_in(r->woken) > seen.most_woken) {
        seen.most_woken = bits_in(r->woken);
    }
}

static void note_caller(const struct tables *before, const struct step *s,
                        const struct result *r)
{
    if (s->caller != INTERRUPT && (r->woken & r->finished) >> s->caller & 1) {
        seen.slept_finished++;
    }
    if (s->kind == POOL_ALLOC && before->pool[s->object].counter <= 0
        && before->pool[s->object].length > 0) {
        seen.promised_refused++;
    }
}

static void note_step(const struct tables *before, const struct tables *after,
                      const struct step *s, const struct result *r)
{
    uint32_t kind = s->kind <= POOL_ADD ? s->kind : OTHER_KIND;

    seen.steps++;
    seen.by_kind[kind][r->code]++;
    if (r->code == ACCEPTED) {
        note_threads(before, after, r);
        note_settling(after, r);
        note_caller(before, s, r);
    }
}

/* ---- what is promised ------------------------------------------------- */

/* "Settling ends when the running thread has no unfinished call." */
static bool is_settled(const struct tables *t)
{
    uint32_t i = running_thread(t);

    return i == IDLE || t->thread[i].call.kind == 0;
}

/* "The number of ready threads is the number of ones; the first ready thread
   is the number of trailing zeros of the word, and an empty word means idle."
   (document 02) */
static bool word_tells(const struct tables *t, uint32_t running)
{
    uint32_t word = t->words.ready, first = 0, ready = 0;

    for (uint32_t i = 0; i < t->sizes.threads; i++) {
        ready += t->thread[i].state == READY;
    }
    while (first < MAX_THREADS && (word >> first & 1) == 0) {
        first++;
    }
    return bits_in(word) == ready
        && running == (word == 0 ? (uint32_t)IDLE : first);
}

/* But for the caller's, each call finished was continued; of those continued
   some may sleep again. */
static bool finished_by_settling(const struct step *s, const struct result *r)
{
    uint32_t own = s->caller == INTERRUPT ? 0 : UINT32_C(1) << s->caller;

    return bits_in(r->finished & ~own) <= r->continued;
}

static void expect_flags(uint64_t seed, uint32_t record,
                         const struct moment *m)
{
    expect(flags_add_up(m), seed, record, "flags lost or made up");
    note_flags(&seen.flags, m);
    expect(seen.flags.empty == 0, seed, record, "woken by events, no flag");
}

static void expect_signals(uint64_t seed, uint32_t record,
                           const struct moment *m)
{
    const char *wrong = unlike_signals(m);

    expect(wrong == NULL, seed, record, wrong);
    note_signals(&seen.signals, m);
}

static void expect_causes(uint64_t seed, uint32_t record,
                          const struct moment *m)
{
    const char *wrong = unlike_causes(m);

    expect(wrong == NULL, seed, record, wrong);
    accepted += m->result->code == ACCEPTED;
    expect(m->after->steps == accepted, seed, record, "wrong step number");
    note_causes(&seen.causes, m);
}

static void expect_list(uint64_t seed, uint32_t record,
                        const struct moment *m)
{
    const char *wrong = follow_list(&seen.lists, m);

    expect(wrong == NULL, seed, record, wrong);
}

static bool nobody_has_woken(const struct tables *t)
{
    for (uint32_t i = 0; i < t->sizes.threads; i++) {
        if (t->thread[i].cause != NO_CAUSE || t->thread[i].step != 0) {
            return false;
        }
    }
    return true;
}

static void expect_account(uint64_t seed, uint32_t record,
                           const struct moment *m,
                           const struct finished_calls *told)
{
    const char *wrong = follow_step(&account, record, told, m);

    expect(wrong == NULL, seed, record, wrong);
    note_cases(&seen.cases, &account, record, told, m);
}

static void expect_nothing(uint64_t seed, uint32_t record,
                           const struct moment *m,
                           const struct finished_calls *told)
{
    static const struct answer none = { 0, 0 };
    const struct result *r = m->result;

    expect(memcmp(m->before, m->after, sizeof *m->before) == 0, seed, record,
           "a refused step changed something");
    expect(r->woken == 0 && r->finished == 0 && told->number == 0
           && memcmp(&r->answer, &none, sizeof none) == 0,
           seed, record, "a refused step gave something");
}

static void run_step(uint64_t seed, uint32_t record, struct tables *t,
                     const struct step *s)
{
    struct tables before = *t;
    struct finished_calls told;
    struct result r = do_told_step(t, s, &told);
    struct moment m = { &before, s, &r, t };
    uint32_t all = (UINT32_C(1) << t->sizes.threads) - 1;

    expect(is_settled(t), seed, record, "settling ran out of its budget");
    expect(tables_hang_together(t), seed, record, "tables do not hang");
    expect(r.running == running_thread(t), seed, record, "wrong running");
    expect(word_tells(t, r.running), seed, record, "wrong ready word");
    expect(((r.woken | r.finished) & ~all) == 0, seed, record, "stray bits");
    expect_signals(seed, record, &m);
    expect_causes(seed, record, &m);
    expect_list(seed, record, &m);
    if (r.code == ACCEPTED) {
        expect(finished_by_settling(s, &r), seed, record,
               "a call that slept was finished and not continued");
        expect_flags(seed, record, &m);
        expect_account(seed, record, &m, &told);
    } else {
        expect_nothing(seed, record, &m, &told);
    }
    note_step(&before, t, s, &r);
}

static void expect_same_bytes(uint64_t seed, const struct sizes *z,
                              const struct step *steps, size_t count,
                              const struct bytes *trace)
{
    static uint8_t again[TRACE_LIMIT];
    size_t length = 0;
    int code = trace_write(z, steps, count, again, trace->length, &length);

    expect(code == ACCEPTED && length == trace->length
           && memcmp(again, trace->at, length) == 0,
           seed, 0, "written again, the bytes differ");
}

static void run_trace(uint64_t seed, const struct bytes *trace)
{
    static struct step steps[TRACE_LIMIT / (LENGTH_BYTES + STEP_BYTES)];
    struct tables t;
    struct reader reader;
    struct sizes sizes;
    size_t count = 0;
    int code = trace_open(&reader, trace->at, trace->length, &sizes);

    seen.traces++;
    if (code == ACCEPTED) {
        fresh_tables(&t, &sizes, NULL);
        accepted = 0;
        expect(nobody_has_woken(&t), seed, 0, "woken before any step");
        begin_flags(&seen.flags);
        begin_account(&account, &t);
        while ((code = trace_next(&reader, &steps[count])) == ACCEPTED) {
            run_step(seed, reader.record - 1, &t, &steps[count]);
            count++;
        }
    }
    if (code == TRACE_END) {
        seen.clean++;
        expect_same_bytes(seed, &sizes, steps, count, trace);
    } else {
        seen.stopped[code]++;
    }
}

/* ---- the program ------------------------------------------------------ */

static void print_kinds(void)
{
    printf("%-6s", "kind");
    for (uint32_t c = 0; c < CODES; c++) {
        printf(" %9" PRIu32, c);
    }
    putchar('\n');
    for (uint32_t k = 0; k <= OTHER_KIND; k++) {
        printf("%-6" PRIu32, k);
        for (uint32_t c = 0; c < CODES; c++) {
            printf(" %9" PRIu64, seen.by_kind[k][c]);
        }
        putchar('\n');
    }
}

static void print_flags(void)
{
    printf("event waits woken %" PRIu64 ": with late flags %" PRIu64
           ", leaving others pending %" PRIu64 "\n", seen.flags.woken,
           seen.flags.late, seen.flags.beside);
    printf("event waits timed out %" PRIu64 ": with flags kept %" PRIu64
           ", which %" PRIu64 " later waits found\n", seen.flags.timed_out,
           seen.flags.kept, seen.flags.found);
}

static void print_seen(void)
{
    printf("traces %" PRIu64 ", clean %" PRIu64 ", steps %" PRIu64 "\n",
           seen.traces, seen.clean, seen.steps);
    for (uint32_t c = 0; c < STOPS; c++) {
        if (seen.stopped[c] > 0) {
            printf("stopped with %" PRIu32 ": %" PRIu64 "\n", c,
                   seen.stopped[c]);
        }
    }
    print_kinds();
    printf("calls retried and asleep again %" PRIu64 "\n",
           seen.retried_asleep);
    printf("woken and asleep again in one step %" PRIu64 "\n",
           seen.woken_asleep);
    printf("caller slept and finished in one step %" PRIu64 "\n",
           seen.slept_finished);
    printf("allocs against a promised object %" PRIu64 "\n",
           seen.promised_refused);
    printf("steps leaving a ready thread unfinished %" PRIu64 "\n",
           seen.unfinished_ready);
    print_flags();
    print_signals(&seen.signals);
    print_wakings(&seen.causes);
    print_kept(&seen.causes);
    print_cases(&seen.cases);
    print_lists(&seen.lists);
    printf("most continued %" PRIu32 " (%" PRIu32 "%% of a budget), "
           "most woken %" PRIu32 "\n",
           seen.most_continued, seen.tightest_percent, seen.most_woken);
}

int main(int argc, char **argv)
{
    static struct bytes trace;
    uint32_t shape = SHAPE_ANY;
    uint64_t count = argc > 1 ? strtoull(argv[1], NULL, 10) : 0;
    uint64_t seed = argc > 2 ? strtoull(argv[2], NULL, 10) : 1;

    if (argc < 2 || argc > 4
        || (argc == 4 && !shape_by_name(argv[3], &shape))) {
        fputs("usage: soak COUNT [SEED [SHAPE]]\n", stderr);
        return 2;
    }
    for (uint64_t k = 0; k < count; k++) {
        make_scenario(seed + k, shape, &trace);
        run_trace(seed + k, &trace);
    }
    print_seen();
    return fflush(stdout) == 0 ? 0 : 1;
}
