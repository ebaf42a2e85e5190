/*
 * The shake: shake COUNT [SEED]. Random steps on tables of which a random
 * value is changed now and then, so that the model meets tables no trace
 * leads to. Asserted:
 *   - where the change breaks the tables, a step is refused with 1, running
 *     is 255 and every byte is kept; the change is then taken back;
 *   - a rule can be named exactly where the tables are broken;
 *   - a thread's cause breaks them exactly if it is outside the list, and no
 *     step number does;
 *   - where it does not, it stays (but for a size's, since the director has
 *     an object in mind), and "accepted steps keep it so";
 *   - no accepted step loses an event flag or makes one up;
 *   - a plain signal answers 1 exactly at the top, where it leaves all else;
 *     every other signal answers 0, and no pool gets to the top;
 *   - the step number counts accepted steps and no others, up to its last one;
 *     a thread that was woken has the cause that goes with where it waited, and
 *     the step's number, and every other thread keeps both;
 *   - none loses a message or an object or makes one up. The ledger begins
 *     anew where a change of the tables made it untrue.
 * Some runs begin so near the last step number that they come to it.
 */
#include "broken.h"
#include "cases.h"
#include "causes.h"
#include "director.h"
#include "flags.h"
#include "signals.h"

#include <inttypes.h>
#include <stddef.h>
#include <stdio.h>
#include <stdlib.h>
#include <string.h>

enum {
    STEPS = 150,
    CHANGES = 12,
    STOCK_PERCENT = 10,
    CAUSE_PERCENT = 20,
    LATE_PERCENT = 25, /* runs that begin near the last step number */
    WORD = sizeof(uint32_t),
    FIRST = offsetof(struct tables, thread) / WORD /* word after the sizes */
};

static struct {
    uint64_t accepted;
    uint64_t refused;
    uint64_t kept;
    uint64_t broken;
    uint32_t most_continued;
    uint64_t stocked;
    uint64_t caused;    /* other causes of the list, and step numbers */
    uint64_t miscaused; /* causes outside it */
    uint64_t begun; /* ledgers, from tables as a change left them */
    struct flags_seen flags;
    struct signals_seen signals;
    struct causes_seen causes;
    struct cases_seen cases;
} seen;

static struct account account;

static void expect(bool fine, uint64_t seed, uint32_t step, const char *what)
{
    if (!fine) {
        printf("seed %" PRIu64 " step %" PRIu32 ": %s\n", seed, step, what);
        exit(1);
    }
}

/* The tables are words throughout, so a word's number names a value. */
static uint32_t get_word(const struct tables *t, size_t number)
{
    uint32_t word;

    memcpy(&word, (const char *)t + number * WORD, WORD);
    return word;
}

static void set_word(struct tables *t, size_t number, uint32_t word)
{
    memcpy((char *)t + number * WORD, &word, WORD);
}

static uint32_t some_word(struct random *r, const struct tables *t,
                          size_t number)
{
    switch (random_below(r, 6)) {
    case 0:
        return random_below(r, 24);
    case 1:
        return get_word(t, number) + 1;
    case 2:
        return get_word(t, number) - 1;
    case 3:
        return get_word(t, random_below(r, sizeof *t / WORD));
    case 4:
        return UINT32_MAX - random_below(r, 3);
    default:
        return random_chance(r, 50) ? 0 : random_word(r);
    }
}

/* A value of some used thread's record, one of the words of document 02, or any
   value of all. */
static size_t some_number(struct random *r, const struct tables *t)
{
    size_t each = sizeof t->thread[0] / WORD;

    if (random_chance(r, 60)) {
        size_t thread = random_below(r, t->sizes.threads);

        return FIRST + thread * each + random_below(r, (uint32_t)each);
    }
    if (random_chance(r, 20)) {
        return offsetof(struct tables, words) / WORD
             + random_below(r, sizeof t->words / WORD);
    }
    return random_below(r, sizeof *t / WORD);
}

static void expect_refusal_1(uint64_t seed, uint32_t step, struct tables *t)
{
    static const struct step tick = { TICK, INTERRUPT, 0, 0, 0 };
    struct tables before = *t;
    struct result r = do_step(t, &tick);

    expect(r.code == BROKEN_TABLES && r.running == IDLE, seed, step,
           "broken tables, another refusal");
    expect(memcmp(&before, t, sizeof before) == 0, seed, step,
           "broken tables changed");
}

/* The words may be made anew for a changed record: else a thread that became
   ready by the change would always be found out by them. */
static void change_something(struct random *r, uint64_t seed, uint32_t step,
                             struct tables *t)
{
    struct tables old = *t;
    size_t number = some_number(r, t);

    set_word(t, number, some_word(r, t, number));
    if (number >= FIRST && random_chance(r, 50)) {
        make_words(t);
    }
    expect((broken_rule(t).rule == NO_RULE) == tables_hang_together(t), seed,
           step, "a broken rule and the test do not go together");
    if (tables_hang_together(t)) {
        seen.kept++;
        if (number >= FIRST) {
            return;
        }
    } else {
        seen.broken++;
        expect_refusal_1(seed, step, t);
    }
    *t = old;
}

/* Of the list or not; those outside it may be told from one inside by their
   upper bytes alone. */
static uint32_t some_cause(struct random *r)
{
    static const uint32_t outside[] = {
        9, 255, 256, 65535, 65536, 65544, UINT32_MAX
    };

    return random_chance(r, 50)
        ? random_below(r, 9)
        : outside[random_below(r, sizeof outside / sizeof outside[0])];
}

static uint32_t some_step_number(struct random *r)
{
    return random_chance(r, 50) ? LAST_STEP - random_below(r, 3)
                                : random_word(r);
}

/* No step left this cause and this number in the record. */
static void change_cause(struct random *r, uint64_t seed, uint32_t step,
                         struct tables *t)
{
    struct thread *th = &t->thread[random_below(r, t->sizes.threads)];
    struct thread old = *th;

    if (!random_chance(r, CAUSE_PERCENT)) {
        return;
    }
    th->cause = some_cause(r);
    th->step = some_step_number(r);
    expect(tables_hang_together(t) == (th->cause <= 8), seed, step,
           "a cause was judged wrongly");
    if (th->cause <= 8) {
        seen.caused++;
        return;
    }
    seen.miscaused++;
    expect(broken_rule(t).rule == CAUSE_RULE, seed, step,
           "a cause breaks another rule");
    expect_refusal_1(seed, step, t);
    *th = old;
}

/* Other messages, from another place on: whoever waits there goes on waiting,
   for what is there now. */
static void stock_box(struct random *r, struct mailbox *box, uint32_t slots)
{
    box->read = random_below(r, slots);
    box->count = random_below(r, slots + 1);
    box->write = (box->read + box->count) % slots;
    for (uint32_t k = 0; k < slots; k++) {
        box->slot[k] = (int32_t)random_below(r, 1000) - 10;
    }
}

/* Objects that are not in the list come or go as out, or come to the list. */
static void stock_pool(struct random *r, struct pool *pool)
{
    for (uint32_t n = 0; n < POOL_OBJECTS; n++) {
        if (pool->mark[n] == FREE || random_chance(r, 60)) {
            continue;
        }
        pool->mark[n] = random_chance(r, 40) ? OUT : ABSENT;
        if (pool->counter >= 0 && random_chance(r, 20)) {
            pool->mark[n] = FREE;
            pool->list[pool->length++] = n;
            pool->counter++;
        }
    }
}

/* At the top or one below it, where nobody waits. */
static void stock_semaphore(struct random *r, int32_t *counter)
{
    if (*counter >= 0) {
        *counter = COUNTER_TOP - (int32_t)random_below(r, 2);
    }
}

/* Messages, objects and counts that no step brought, in tables that hang
   together. */
static void change_stock(struct random *r, uint64_t seed, uint32_t step,
                         struct tables *t)
{
    if (!random_chance(r, STOCK_PERCENT)) {
        return;
    }
    seen.stocked++;
    if (random_chance(r, 50)) {
        uint32_t m = random_below(r, t->sizes.mailboxes);

        stock_box(r, &t->mailbox[m], t->sizes.slots[m]);
    } else if (random_chance(r, 80)) {
        stock_pool(r, &t->pool[random_below(r, t->sizes.pools)]);
    } else {
        stock_semaphore(r, &t->semaphore[random_below(r,
                                                      t->sizes.semaphores)]);
    }
    expect(tables_hang_together(t), seed, step, "other stock does not hang");
}

/* What was in these tables before counts as posted, added, handed over. */
static void go_on_with_account(const struct tables *t)
{
    if (unlike_tables(&account, t) != NULL) {
        seen.begun++;
        begin_account(&account, t);
    }
}

static void expect_signals(uint64_t seed, uint32_t step,
                           const struct moment *m)
{
    const char *wrong = unlike_signals(m);

    expect(wrong == NULL, seed, step, wrong);
    note_signals(&seen.signals, m);
}

static void expect_causes(uint64_t seed, uint32_t step,
                          const struct moment *m)
{
    const char *wrong = unlike_causes(m);

    expect(wrong == NULL, seed, step, wrong);
    note_causes(&seen.causes, m);
}

static void expect_account(uint64_t seed, uint32_t step,
                           const struct moment *m,
                           const struct finished_calls *told)
{
    const char *wrong = follow_step(&account, step, told, m);

    expect(wrong == NULL, seed, step, wrong);
    note_cases(&seen.cases, &account, step, told, m);
}

static void shaken_step(struct director *d, uint64_t seed, uint32_t step,
                        struct tables *t)
{
    struct step s = next_step(d, t);
    struct tables before = *t;
    struct finished_calls told;
    struct result r = do_told_step(t, &s, &told);
    struct moment m = { &before, &s, &r, t };

    expect(tables_hang_together(t), seed, step, "tables do not hang");
    expect(r.code != BROKEN_TABLES, seed, step, "refusal 1");
    expect_signals(seed, step, &m);
    expect_causes(seed, step, &m);
    if (r.code == ACCEPTED) {
        seen.accepted++;
        expect(flags_add_up(&m), seed, step, "flags lost or made up");
        note_flags(&seen.flags, &m);
        expect_account(seed, step, &m, &told);
    } else {
        seen.refused++;
        expect(told.number == 0, seed, step, "a refused step told a call");
    }
    if (r.continued > seen.most_continued) {
        seen.most_continued = r.continued;
    }
}

static void shake(uint64_t seed)
{
    struct random random = { seed };
    uint32_t threads = random_between(&random, 1, MAX_THREADS);
    uint32_t focus = random_below(&random, FAMILIES + 1);
    struct director d = new_director(&random, focus, 5);
    struct sizes z = { threads, 2, 2, 3, 2, 2, { 1, 3, 0, 0 } };
    struct tables t;

    fresh_tables(&t, &z, NULL);
    if (random_chance(&random, LATE_PERCENT)) {
        t.steps = LAST_STEP - random_below(&random, STEPS);
    }
    begin_flags(&seen.flags);
    begin_account(&account, &t);
    for (uint32_t step = 1; step <= STEPS; step++) {
        for (uint32_t k = random_below(&random, CHANGES); k > 0; k--) {
            change_something(&random, seed, step, &t);
        }
        change_stock(&random, seed, step, &t);
        change_cause(&random, seed, step, &t);
        go_on_with_account(&t);
        shaken_step(&d, seed, step, &t);
    }
}

int main(int argc, char **argv)
{
    uint64_t count = argc > 1 ? strtoull(argv[1], NULL, 10) : 0;
    uint64_t seed = argc > 2 ? strtoull(argv[2], NULL, 10) : 1;

    if (argc < 2 || argc > 3) {
        fputs("usage: shake COUNT [SEED]\n", stderr);
        return 2;
    }
    for (uint64_t k = 0; k < count; k++) {
        shake(seed + k);
    }
    printf("steps accepted %" PRIu64 ", refused %" PRIu64 "; changes kept %"
           PRIu64 ", broken %" PRIu64 "; most continued %" PRIu32 "\n",
           seen.accepted, seen.refused, seen.kept, seen.broken,
           seen.most_continued);
    printf("event waits woken %" PRIu64 ", without a flag %" PRIu64
           "; with another message %" PRIu64 ", flags kept %" PRIu64 "\n",
           seen.flags.woken, seen.flags.empty, seen.flags.timed_out,
           seen.flags.kept);
    printf("stocks changed %" PRIu64 ", ledgers begun on changed tables %"
           PRIu64 "; causes changed %" PRIu64 ", outside the list %" PRIu64
           "\n", seen.stocked, seen.begun, seen.caused, seen.miscaused);
    print_signals(&seen.signals);
    print_wakings(&seen.causes);
    print_kept(&seen.causes);
    print_cases(&seen.cases);
    return fflush(stdout) == 0 ? 0 : 1;
}
