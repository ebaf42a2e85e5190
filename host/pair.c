/* A step, or fresh tables, by the archive and by the second program. */
#include "pair.h"

#include <stdio.h>
#include <stdlib.h>
#include <string.h>

void expect(bool fine, struct where at, const char *what)
{
    if (!fine) {
        printf("seed %llu, number %llu: %s\n",
               (unsigned long long)at.seed, (unsigned long long)at.number,
               what);
        exit(1);
    }
}

static bool same_answer(const nil_result *r, const struct result *q)
{
    return r->code == q->code && r->running == q->running
        && r->woken == q->woken && r->finished == q->finished
        && r->message == q->answer.message && r->datum == q->answer.datum;
}

static void expect_same_plant(struct where at, const struct plant *plant,
                              const struct tables *t, const char *what)
{
    struct plant other;

    from_second(t, &other.tables, &other.clock);
    expect(memcmp(plant, &other, sizeof other) == 0, at, what);
}

/* What was there before shows whether a refusal leaves every byte. */
uint32_t both_fresh(struct where at, const struct sizes *z, uint32_t frequency,
                    struct plant *plant)
{
    nil_sizes sizes = nil_sizes_of(z);
    struct tables t;
    uint32_t code;

    to_second(&plant->tables, &plant->clock, &t);
    code = fresh_tables(&t, z, &frequency);
    expect(nil_fresh(&plant->tables, &plant->clock, &sizes, frequency) == code,
           at, "fresh tables: the codes differ");
    expect_same_plant(at, plant, &t, "fresh tables: the bytes differ");
    return code;
}

uint64_t broken_rules[RULES];

/* Returns whether there is a rule that is broken. */
static bool both_broken(struct where at, const struct plant *plant,
                        const struct tables *t)
{
    uint32_t number = nil_broken(&plant->tables, &plant->clock);
    struct broken b = broken_rule(t);

    expect(nil_rule(number) == b.rule, at, "the broken rules differ");
    expect(nil_row(number) == b.row, at, "the rows of the rule differ");
    broken_rules[b.rule]++;
    return number != 0;
}

/* ---- for a screen ----------------------------------------------------- */

/* What the words themselves say, whatever they are. */
static void expect_words(struct where at, const nil_tables *t)
{
    uint32_t ones = 0, first = NIL_IDLE;

    for (uint32_t i = NIL_THREADS; i-- > 0;) {
        if (t->words.ready >> i & 1) {
            ones++;
            first = i;
        }
    }
    expect(nil_ready_count(t) == ones, at, "another number of ready threads");
    expect(nil_first_ready(t) == first, at, "another first ready thread");
    for (uint32_t place = 0; place < NIL_PLACES; place++) {
        expect(nil_waiting(t, place) == t->words.waiting[place], at,
               "another word for a place");
    }
}

/* The lowest bits of some are a place that there is. */
static void expect_no_places(struct where at, const nil_tables *t)
{
    static const uint32_t none[] = {
        NIL_PLACES, NIL_PLACES + 1, 64, 255, 256, 65535, 65536, 65571,
        UINT32_C(2147483648), UINT32_MAX
    };

    for (uint32_t k = 0; k < sizeof none / sizeof none[0]; k++) {
        expect(nil_waiting(t, none[k]) == 0, at, "a word for no place");
    }
}

/* The second program's walks over the records of good tables. */
static void expect_walks(struct where at, const nil_tables *t,
                         const struct tables *walked)
{
    struct places all = places_in_use(&walked->sizes);
    uint32_t ready = 0;

    for (uint32_t i = 0; i < walked->sizes.threads; i++) {
        ready += walked->thread[i].state == READY;
    }
    expect(nil_ready_count(t) == ready, at, "no walk counts so many ready");
    expect(nil_first_ready(t) == running_thread(walked), at,
           "the first ready thread does not run");
    for (uint32_t k = 0; k < all.number; k++) {
        expect(nil_waiting(t, place_number(all.at[k]))
                   == walk_waiting(walked, all.at[k]),
               at, "no walk finds these waiters");
    }
}

static void try_screen(struct where at, const struct plant *plant,
                       const struct tables *t, bool broken)
{
    struct plant before = *plant;

    expect_words(at, &plant->tables);
    expect_no_places(at, &plant->tables);
    if (!broken) {
        expect_walks(at, &plant->tables, t);
    }
    expect(memcmp(&before, plant, sizeof before) == 0, at,
           "a look at the screen changed a byte");
}

/* ---- a step ----------------------------------------------------------- */

struct flags_seen event_waits;

/* The tables and the result are both sides': they were found equal. */
static void follow_flags(struct where at, const struct moment *m)
{
    expect(flags_add_up(m), at, "event flags were lost or made up");
    note_flags(&event_waits, m);
}

struct signals_seen top_signals;

static void follow_signals(struct where at, const struct moment *m)
{
    const char *wrong = unlike_signals(m);

    expect(wrong == NULL, at, wrong);
    note_signals(&top_signals, m);
}

struct causes_seen wakings;

static void follow_causes(struct where at, const struct moment *m)
{
    const char *wrong = unlike_causes(m);

    expect(wrong == NULL, at, wrong);
    note_causes(&wakings, m);
}

uint32_t both_step(struct where at, struct plant *plant, const struct step *s)
{
    nil_request request = nil_request_of(s);
    struct plant before = *plant;
    struct tables t, old;
    struct result q;
    struct moment m;
    nil_result r;
    bool broken;

    memset(&r, 0x55, sizeof r); /* so that a field left unwritten shows */
    to_second(&plant->tables, &plant->clock, &t);
    expect_same_plant(at, plant, &t, "the bridge lost a byte");
    broken = both_broken(at, plant, &t);
    try_screen(at, plant, &t, broken);
    nil_step(&plant->tables, &plant->clock, &request, &r);
    old = t;
    q = do_step(&t, s);
    expect(same_answer(&r, &q), at, "the answers differ");
    expect(broken == (r.code == BROKEN_TABLES), at,
           "a broken rule and refusal 1 do not go together");
    expect_same_plant(at, plant, &t, "the bytes differ");
    expect(r.code == 0 || memcmp(&before, plant, sizeof before) == 0, at,
           "a refused step changed a byte");
    try_screen(at, plant, &t, broken);
    m = (struct moment){ &old, s, &q, &t };
    follow_signals(at, &m);
    follow_causes(at, &m);
    if (r.code == 0) {
        follow_flags(at, &m);
    }
    return r.code;
}
