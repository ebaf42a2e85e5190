/*
 * The stack of a step: deep [BYTES]. The second program looks for steps that
 * continue many calls: 16 threads at one mailbox, first built up by hand, then
 * in random plants. Each step that continues some is made by the archive on a
 * stack of exactly BYTES, with a page below it that kills whoever touches it,
 * and its answer is compared.
 *
 * Without BYTES it is NIL_STACK, which the header promises to be enough.
 */
#include "bridge.h"
#include "random.h"

#include <stdio.h>
#include <stdlib.h>
#include <string.h>
#include <sys/mman.h>

enum { PAGE = 4096, PLANTS = 3000, PLANT_STEPS = 200 };
/* With 5 calls settling is as deep as it gets before half of the budget is
   spent. A chain that is worth its name has 14. */
enum { DEEP = 5, WANTED = 14 };
enum { PAINT = 0xa5 };

/* Calls nil_step with the stack's end as its stack. */
void step_on(nil_tables *tables, nil_clock *clock, const nil_request *request,
             nil_result *result, void *stack_end);

__asm__(".text\n"
        "step_on:\n"
        "    pushq %rbp\n"
        "    movq %rsp, %rbp\n"
        "    movq %r8, %rsp\n"
        "    callq nil_step\n"
        "    movq %rbp, %rsp\n"
        "    popq %rbp\n"
        "    retq\n");

/* The most of both, and how many steps were deep. */
struct deepest {
    uint32_t continued;
    size_t used; /* bytes of the stack */
    uint32_t steps;
};

static size_t stack_bytes = NIL_STACK;

static void must(bool fine, const char *what)
{
    if (!fine) {
        printf("deep: %s\n", what);
        exit(1);
    }
}

static uint8_t *new_stack(void)
{
    size_t whole = PAGE + (stack_bytes + PAGE - 1) / PAGE * PAGE;
    uint8_t *low = mmap(NULL, whole, PROT_READ | PROT_WRITE,
                        MAP_PRIVATE | MAP_ANONYMOUS, -1, 0);

    must(low != MAP_FAILED && mprotect(low, PAGE, PROT_NONE) == 0,
         "there is no memory for a stack");
    return low + PAGE;
}

/* How far the paint is gone, from the end. */
static size_t used_of(const uint8_t *stack)
{
    size_t k = 0;

    while (k < stack_bytes && stack[k] == PAINT) {
        k++;
    }
    return stack_bytes - k;
}

/* The archive's step from the same tables; `after` and `expected` are the
   second program's. */
static size_t try_step(const struct tables *before, const struct step *s,
                       const struct tables *after,
                       const struct result *expected)
{
    static uint8_t *stack;
    nil_request request = nil_request_of(s);
    nil_tables tables, wanted;
    nil_clock clock, wanted_clock;
    nil_result r;

    if (stack == NULL) {
        stack = new_stack();
    }
    memset(&tables, 0, sizeof tables);
    from_second(before, &tables, &clock);
    memset(stack, PAINT, stack_bytes);
    step_on(&tables, &clock, &request, &r, stack + stack_bytes);
    memset(&wanted, 0, sizeof wanted);
    from_second(after, &wanted, &wanted_clock);
    must(memcmp(&tables, &wanted, sizeof wanted) == 0
             && r.code == expected->code && r.running == expected->running
             && r.woken == expected->woken && r.finished == expected->finished,
         "the answers differ");
    return used_of(stack);
}

/* A step by the second program; by the archive too, if it is deep. */
static struct result do_both(struct tables *t, struct step s,
                             struct deepest *d)
{
    struct tables before = *t;
    struct result r = do_step(t, &s);

    if (r.continued > d->continued) {
        d->continued = r.continued;
    }
    if (r.continued >= DEEP) {
        size_t used = try_step(&before, &s, t, &r);

        d->used = used > d->used ? used : d->used;
        d->steps++;
    }
    return r;
}

static struct tables new_tables(uint32_t slots)
{
    struct sizes z = { MAX_THREADS, 0, 0, 0, 1, 0, { slots, 0, 0, 0 } };
    struct tables t;

    memset(&t, 0, sizeof t);
    must(fresh_tables(&t, &z, NULL) == 0, "no fresh tables");
    return t;
}

static void call(struct tables *t, struct deepest *d, uint8_t kind,
                 uint8_t caller, uint32_t timeout)
{
    struct step s = { kind, caller, 0, 0, timeout };

    must(do_both(t, s, d).code == 0, "a step of the chain is refused");
}

/* All threads wait for a message. Thread 0 gets one, posts one for each of the
   others, which are woken and have to wait for thread 0 to sleep, and takes
   all these messages itself. When it sleeps, each finds none and sleeps
   again. */
static void run_chain(struct deepest *d)
{
    struct tables t = new_tables(MAX_SLOTS);

    for (uint8_t i = 0; i < MAX_THREADS; i++) {
        call(&t, d, FETCH, i, INFINITE);
    }
    call(&t, d, POST, INTERRUPT, IMMEDIATE);
    for (uint32_t k = 1; k < MAX_THREADS; k++) {
        call(&t, d, POST, 0, IMMEDIATE);
    }
    for (uint32_t k = 1; k < MAX_THREADS; k++) {
        call(&t, d, FETCH, 0, IMMEDIATE);
    }
    call(&t, d, FETCH, 0, INFINITE);
}

/* Posts and fetches by whoever runs, more of one for a while, then of the
   other, so that mailboxes fill and drain; and now and then a reset. */
static struct step some_step(struct random *r, const struct tables *t)
{
    static const uint8_t kinds[] = { POST, POST_AHEAD, FETCH, FETCH };
    uint32_t running = running_thread(t);
    struct step s = { 0, INTERRUPT, 0, 0, IMMEDIATE };

    s.kind = kinds[random_below(r, 4)];
    if (running != IDLE && random_chance(r, 85)) {
        s.caller = (uint8_t)running;
        s.timeout = random_chance(r, 40) ? INFINITE : random_below(r, 4);
    }
    if (random_chance(r, 3)) {
        s.kind = random_chance(r, 50) ? MAILBOX_RESET : MAILBOX_RESUME;
    }
    return s;
}

static void run_plant(uint64_t seed, struct deepest *d)
{
    struct random r = { seed };
    struct tables t = new_tables(random_between(&r, 1, MAX_SLOTS));

    for (uint32_t k = 0; k < PLANT_STEPS; k++) {
        struct step s = some_step(&r, &t);

        must(do_both(&t, s, d).code <= BAD_MOMENT, "no such code");
    }
}

int main(int argc, char **argv)
{
    struct deepest d = { 0, 0, 0 };

    if (argc > 1) {
        stack_bytes = strtoull(argv[1], NULL, 10) / 16 * 16;
    }
    run_chain(&d);
    for (uint64_t seed = 1; seed <= PLANTS; seed++) {
        run_plant(seed, &d);
    }
    must(d.continued >= WANTED, "no step continues calls enough");
    printf("deep: %u steps that continue %u to %u calls: %llu bytes used of a "
           "stack of %llu\n", (unsigned)d.steps, (unsigned)DEEP,
           (unsigned)d.continued, (unsigned long long)d.used,
           (unsigned long long)stack_bytes);
    return fflush(stdout) == 0 ? 0 : 1;
}
