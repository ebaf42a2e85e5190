/* The listing program: second [--tables | --account | --why | --save SAVED]
   [FILE]. */
#include "account.h"
#include "files.h"
#include "trace.h"

#include <errno.h>
#include <inttypes.h>
#include <stdio.h>
#include <string.h>

/* "The listing program and the recorded plant traces now give 1000
   themselves." */
static const uint32_t LISTED_FREQUENCY = 1000;

enum { EXIT_FINE = 0, EXIT_TROUBLE = 1, EXIT_USAGE = 2 };

static const char USAGE[] =
    "usage: second [--tables | --account | --why | --save SAVED] [FILE]\n"
    "Lists the steps of a trace, read from FILE or from standard input.\n"
    "  --tables      print the answer and all tables after each step's line\n"
    "  --account     print no steps, but what became of messages and objects\n"
    "  --why         print no steps, but who was woken in them, and why\n"
    "  --save SAVED  print no steps, but save the tables after the last one\n"
    "  --help        print this text\n";

static bool complain(const char *name)
{
    const char *why = errno != 0 ? strerror(errno)
                                 : "cannot be read or written";

    fprintf(stderr, "second: %s: %s\n", name, why);
    return false;
}

/* ---- printing --------------------------------------------------------- */

static void print_place(struct place at)
{
    static const char letter[] = { '-', 's', 'q', 'r', 'w', 'f', 'p' };

    putchar(letter[at.tag]);
    if (at.tag != NOWHERE) {
        printf("%" PRIu32, at.index);
    }
}

static void print_thread(uint32_t i, const struct thread *th)
{
    printf("thread %" PRIu32 " %" PRIu32 " ", i, th->state);
    print_place(th->place);
    printf(" %" PRIu32 " %" PRIu32 " %" PRIu32 " %" PRId32, th->remaining,
           th->pending, th->awaited, th->wake_message);
    printf(" %" PRIu32 " %" PRIu32 " %" PRIu32 " %" PRIu32, th->call.kind,
           th->call.object, th->call.operand, th->call.timeout);
    printf(" %" PRId32 " %" PRIu32, th->last.message, th->last.datum);
    printf(" %" PRIu32 " %" PRIu32 "\n", th->cause, th->step);
}

static void print_mailbox(uint32_t m, const struct mailbox *box,
                          uint32_t slots)
{
    printf("mailbox %" PRIu32 " %" PRIu32 " %" PRIu32 " %" PRIu32 " %d", m,
           box->read, box->write, box->count, box->reset != 0);
    printf(" %" PRId32 " %" PRId32, box->writers, box->readers);
    for (uint32_t k = 0; k < slots; k++) {
        printf(" %" PRId32, box->slot[k]);
    }
    putchar('\n');
}

static void print_pool(uint32_t p, const struct pool *pool)
{
    printf("pool %" PRIu32 " %" PRId32 " %" PRIu32, p, pool->counter,
           pool->length);
    for (uint32_t k = 0; k < pool->length; k++) {
        printf(" %" PRIu32, pool->list[k]);
    }
    printf("\nmarks %" PRIu32, p);
    for (uint32_t n = 0; n < POOL_OBJECTS; n++) {
        printf(" %" PRIu32, pool->mark[n]);
    }
    putchar('\n');
}

static void print_words(struct words w, const struct sizes *z)
{
    struct places all = places_in_use(z);

    printf("ready %" PRIu32 "\n", w.ready);
    for (uint32_t k = 0; k < all.number; k++) {
        printf("waiting ");
        print_place(all.at[k]);
        printf(" %" PRIu32 "\n", *word_at(&w, all.at[k]));
    }
}

/* Rows within the sizes only. */
static void print_tables(const struct tables *t)
{
    for (uint32_t i = 0; i < t->sizes.threads; i++) {
        print_thread(i, &t->thread[i]);
    }
    for (uint32_t s = 0; s < t->sizes.semaphores; s++) {
        printf("semaphore %" PRIu32 " %" PRId32 "\n", s, t->semaphore[s]);
    }
    for (uint32_t q = 0; q < t->sizes.queues; q++) {
        printf("queue %" PRIu32 " %" PRId32 "\n", q, t->queue[q]);
    }
    for (uint32_t r = 0; r < t->sizes.references; r++) {
        printf("reference %" PRIu32 " %" PRIu32 "\n", r, t->reference[r]);
    }
    for (uint32_t m = 0; m < t->sizes.mailboxes; m++) {
        print_mailbox(m, &t->mailbox[m], t->sizes.slots[m]);
    }
    for (uint32_t p = 0; p < t->sizes.pools; p++) {
        print_pool(p, &t->pool[p]);
    }
    print_words(t->words, &t->sizes);
    printf("clock %" PRIu32 " %" PRIu32 "\n", t->clock.time,
           t->clock.frequency);
    printf("steps %" PRIu32 "\n", t->steps);
}

static void print_step(uint32_t record, const struct result *r)
{
    printf("%" PRIu32 " %" PRIu32 " %" PRIu32 " %" PRIu32 " %" PRIu32 "\n",
           record, r->code, r->running, r->woken, r->finished);
}

static void print_answer(const struct answer *a)
{
    printf("answer %" PRId32 " %" PRIu32 "\n", a->message, a->datum);
}

/* ---- the steps of a trace --------------------------------------------- */

/* What the steps of a trace are made on. The account begins with the fresh
   tables; only --account goes on with it. */
struct run {
    struct tables t;
    struct account account;
    bool agrees; /* the account with the tables, after each step so far */
    const char *saved; /* the file of --save */
};

/* Makes a step, and prints what is wanted of it. */
typedef void step_maker(struct run *run, uint32_t record,
                        const struct step *s);

/* Where the reader stopped: at the end (TRACE_END) or at a bad record. */
struct stop {
    uint32_t record;
    int code;
};

/* Makes the steps before the end or a bad record. Without record 0 the run is
   one of no threads and no objects. */
static struct stop go_through(const uint8_t *bytes, size_t length,
                              struct run *run, step_maker *make)
{
    struct reader r;
    struct sizes sizes;
    struct step s;
    int code = trace_open(&r, bytes, length, &sizes);

    run->agrees = true;
    if (code == ACCEPTED) {
        fresh_tables(&run->t, &sizes, &LISTED_FREQUENCY);
        begin_account(&run->account, &run->t);
        while ((code = trace_next(&r, &s)) == ACCEPTED) {
            make(run, r.record - 1, &s);
        }
    }
    return (struct stop){ r.record, code };
}

/* "At a bad record `stopped`, its number (0 for 15 and 11), the code." */
static void print_stop(struct stop at)
{
    if (at.code != TRACE_END) {
        printf("stopped %" PRIu32 " %d\n", at.record, at.code);
    }
}

/* ---- listing ---------------------------------------------------------- */

static void list_step(struct run *run, uint32_t record, const struct step *s)
{
    struct result result = do_step(&run->t, s);

    print_step(record, &result);
}

static void list_step_and_tables(struct run *run, uint32_t record,
                                 const struct step *s)
{
    struct result result = do_step(&run->t, s);

    print_step(record, &result);
    print_answer(&result.answer);
    print_tables(&run->t);
}

static bool list_trace(const uint8_t *bytes, size_t length, struct run *run)
{
    puts("step code run woke done");
    print_stop(go_through(bytes, length, run, list_step));
    return true;
}

static bool list_all(const uint8_t *bytes, size_t length, struct run *run)
{
    puts("step code run woke done");
    print_stop(go_through(bytes, length, run, list_step_and_tables));
    return true;
}

/* ---- why threads woke ------------------------------------------------- */

/* The call in which a woken thread waited: the step's own if it made the step,
   else the one that its record kept before. */
static struct call waiting_call(const struct moment *m, uint32_t i)
{
    if (m->step->caller == i) {
        return (struct call){ m->step->kind, m->step->object, 0, 0 };
    }
    return m->before->thread[i].call;
}

static void print_waking(const struct moment *m, uint32_t i)
{
    struct call waited = waiting_call(m, i);
    const struct thread *th = &m->after->thread[i];

    printf("%" PRIu32 " %" PRIu32 " %s ", m->after->steps, i,
           cause_name(th->cause));
    print_place(place_of_wait(&waited));
    printf(" %" PRId32 "\n", th->wake_message);
}

/* A refused step wakes nobody, and so prints nothing. */
static void explain_step(struct run *run, uint32_t record,
                         const struct step *s)
{
    struct tables before = run->t;
    struct result result = do_step(&run->t, s);
    struct moment m = { &before, s, &result, &run->t };

    (void)record;
    for (uint32_t i = 0; i < run->t.sizes.threads; i++) {
        if (result.woken >> i & 1) {
            print_waking(&m, i);
        }
    }
}

static bool explain_trace(const uint8_t *bytes, size_t length,
                          struct run *run)
{
    puts("step thread cause object message");
    print_stop(go_through(bytes, length, run, explain_step));
    return true;
}

/* ---- the account ------------------------------------------------------ */

static void print_boxes(const struct account *a)
{
    puts("mailbox posted fetched lost present");
    for (uint32_t m = 0; m < a->sizes.mailboxes; m++) {
        struct box_sums sums = sums_of_box(a, m);

        printf("%" PRIu32 " %" PRIu32 " %" PRIu32 " %" PRIu32 " %" PRIu32
               "\n", m, sums.posted, sums.fetched, sums.lost, sums.present);
    }
}

static void print_pools(const struct account *a)
{
    puts("pool added free out");
    for (uint32_t p = 0; p < a->sizes.pools; p++) {
        printf("%" PRIu32 " %" PRIu32 " %" PRIu32 " %" PRIu32 "\n", p,
               a->pool[p].added, objects_with(a, p, FREE),
               objects_with(a, p, OUT));
    }
}

static void print_holders(const struct account *a, uint32_t p)
{
    for (uint32_t n = 0; n < POOL_OBJECTS; n++) {
        const struct holding *h = &a->pool[p].object[n];

        if (h->mark == OUT) {
            printf("%" PRIu32 " %" PRIu32 " %" PRIu32 " %" PRIu32 "\n", p, n,
                   h->thread, h->step);
        }
    }
}

static void print_account(const struct account *a)
{
    print_boxes(a);
    print_pools(a);
    puts("pool object thread step");
    for (uint32_t p = 0; p < a->sizes.pools; p++) {
        print_holders(a, p);
    }
}

/* The ledger must agree with the tables after each step. */
static void account_step(struct run *run, uint32_t record,
                         const struct step *s)
{
    struct tables before = run->t;
    struct finished_calls told;
    struct result result = do_told_step(&run->t, s, &told);
    struct moment m = { &before, s, &result, &run->t };
    const char *wrong = follow_step(&run->account, record, &told, &m);

    if (wrong != NULL) {
        fprintf(stderr, "second: record %" PRIu32 ": %s\n", record, wrong);
        run->agrees = false;
    }
}

static bool account_trace(const uint8_t *bytes, size_t length,
                          struct run *run)
{
    struct stop at = go_through(bytes, length, run, account_step);

    print_account(&run->account);
    print_stop(at);
    return run->agrees;
}

/* ---- saving ----------------------------------------------------------- */

static void make_step(struct run *run, uint32_t record, const struct step *s)
{
    (void)record;
    do_step(&run->t, s);
}

/* Without record 0 there are no tables: nothing is written then. */
static bool save_trace(const uint8_t *bytes, size_t length, struct run *run)
{
    struct stop at = go_through(bytes, length, run, make_step);

    print_stop(at);
    return at.record == 0 || write_saved(run->saved, &run->t)
        || complain(run->saved);
}

/* ---- the program ------------------------------------------------------ */

/* Prints a trace in one way. Whether the account agreed, where one is kept, and
   the tables were written, where they are saved. */
typedef bool printer(const uint8_t *bytes, size_t length, struct run *run);

struct options {
    const char *file;  /* NULL: standard input */
    const char *saved; /* NULL: nothing is saved */
    printer *print;
    bool help;
};

static printer *printer_for(const char *word)
{
    return strcmp(word, "--tables") == 0 ? list_all
         : strcmp(word, "--account") == 0 ? account_trace
         : strcmp(word, "--why") == 0 ? explain_trace
         : strcmp(word, "--save") == 0 ? save_trace
         : NULL;
}

/* An option may come twice; no two of them go together. */
static bool choose(struct options *o, printer *print)
{
    bool fine = o->print == list_trace || o->print == print;

    o->print = print;
    return fine;
}

static bool read_options(int argc, char **argv, struct options *o)
{
    *o = (struct options){ NULL, NULL, list_trace, false };
    for (int k = 1; k < argc; k++) {
        if (printer_for(argv[k]) != NULL) {
            if (!choose(o, printer_for(argv[k]))) {
                return false;
            }
            if (o->print == save_trace) {
                o->saved = argv[++k]; /* NULL behind the last word */
            }
        } else if (strcmp(argv[k], "--help") == 0) {
            o->help = true;
        } else if (argv[k][0] == '-' || o->file != NULL) {
            return false;
        } else {
            o->file = argv[k];
        }
    }
    return o->print != save_trace || o->saved != NULL;
}

/* One byte more than a trace may have is read, to see refusal 15. Nothing is
   printed before all is read, so an unreadable file gets no listing. */
static bool read_input(const char *file, uint8_t *bytes, size_t space,
                       size_t *length)
{
    const char *name = file ? file : "standard input";
    FILE *in;
    bool fine;

    errno = 0;
    in = file ? fopen(file, "rb") : stdin;
    if (in == NULL) {
        return complain(name);
    }
    *length = fread(bytes, 1, space, in);
    fine = !ferror(in) || complain(name);
    if (file != NULL) {
        fclose(in);
    }
    return fine;
}

int main(int argc, char **argv)
{
    static uint8_t bytes[TRACE_LIMIT + 1];
    static struct run run;
    struct options options;
    size_t length = 0;
    bool fine;

    if (!read_options(argc, argv, &options)) {
        fputs(USAGE, stderr);
        return EXIT_USAGE;
    }
    if (options.help) {
        fputs(USAGE, stdout);
        return EXIT_FINE;
    }
    if (!read_input(options.file, bytes, sizeof bytes, &length)) {
        return EXIT_TROUBLE;
    }
    run.saved = options.saved;
    fine = options.print(bytes, length, &run);
    errno = 0;
    if (fflush(stdout) != 0 || ferror(stdout)) {
        complain("standard output");
        return EXIT_TROUBLE;
    }
    return fine ? EXIT_FINE : EXIT_TROUBLE;
}
