/* Runs the hand-worked cases, and counts them. Each case says what it shows. */
#include "check.h"

#include <inttypes.h>
#include <stdio.h>
#include <string.h>

struct tables t;
static const char *subject = "";
static unsigned failures;
static unsigned tests;

void about(const char *name)
{
    subject = name;
}

void verify(bool fine, const char *file, int line, const char *what)
{
    tests++;
    if (!fine) {
        failures++;
        printf("%s:%d: %s: %s\n", file, line, subject, what);
    }
}

void start(const char *name, struct sizes z, uint32_t slots)
{
    about(name);
    for (uint32_t m = 0; m < z.mailboxes; m++) {
        z.slots[m] = slots;
    }
    VERIFY(fresh_tables(&t, &z, NULL) == ACCEPTED);
    VERIFY(tables_hang_together(&t));
}

void run(const char *file, int line, struct step s, struct result want)
{
    struct tables before = t;
    struct result r = do_step(&t, &s);
    bool same = r.code == want.code && r.running == want.running
        && r.woken == want.woken && r.finished == want.finished
        && r.answer.message == want.answer.message
        && r.answer.datum == want.answer.datum;

    verify(same, file, line, "another result");
    if (!same) {
        printf("  got %" PRIu32 " %" PRIu32 " %" PRIu32 " %" PRIu32
               " %" PRId32 " %" PRIu32 "\n", r.code, r.running, r.woken,
               r.finished, r.answer.message, r.answer.datum);
    }
    verify(r.code == ACCEPTED || memcmp(&before, &t, sizeof t) == 0, file,
           line,
           "a refused step changed the tables");
    verify(r.code == BROKEN_TABLES || tables_hang_together(&t), file, line,
           "the tables do not hang together");
}

bool last_is(uint32_t i, int32_t message, uint32_t datum)
{
    return t.thread[i].last.message == message
        && t.thread[i].last.datum == datum;
}

bool call_is(uint32_t i, uint32_t kind, uint32_t object, uint32_t operand,
             uint32_t timeout)
{
    const struct call *c = &t.thread[i].call;

    return c->kind == kind && c->object == object && c->operand == operand
        && c->timeout == timeout;
}

bool waits(uint32_t i, uint32_t state, uint32_t tag, uint32_t index)
{
    const struct thread *th = &t.thread[i];

    return th->state == state && th->place.tag == tag
        && th->place.index == index;
}

bool box_is(uint32_t m, uint32_t read, uint32_t write, uint32_t count)
{
    const struct mailbox *box = &t.mailbox[m];

    return box->read == read && box->write == write && box->count == count;
}

void ticks(uint32_t n)
{
    static const struct step tick = { TICK, FF, 0, 0, 0 };

    while (n-- > 0) {
        VERIFY(do_step(&t, &tick).code == ACCEPTED);
    }
}

int main(void)
{
    check_waits();
    check_signals();
    check_times();
    check_events();
    check_mailboxes();
    check_pools();
    check_refusals();
    check_tables();
    check_words();
    check_traces();
    check_pipes();
    check_account();
    check_causes();
    check_compare();
    check_saved();
    printf("check: %u tests, %u failed\n", tests, failures);
    return failures == 0 && fflush(stdout) == 0 ? 0 : 1;
}
