/*
 * The ledger. Its lines are never taken out: a posting that goes gets its fate,
 * once. The order of those present is kept beside the lines.
 */
#include "account.h"

#include <stddef.h>
#include <string.h>

/* ---- mailboxes -------------------------------------------------------- */

static struct posting *add_line(struct account *a, uint32_t m, uint32_t step,
                                uint32_t thread, int32_t message)
{
    struct posting *line = &a->line[a->lines++];

    memset(line, 0, sizeof *line);
    line->mailbox = m;
    line->step = step;
    line->thread = thread;
    line->message = message;
    return line;
}

static void stand_behind(struct standing *box, uint32_t line)
{
    box->line[box->number++] = line;
}

static void stand_ahead(struct standing *box, uint32_t line)
{
    memmove(&box->line[1], &box->line[0], box->number * sizeof box->line[0]);
    box->line[0] = line;
    box->number++;
}

static uint32_t leave_first(struct standing *box)
{
    uint32_t line = box->line[0];

    box->number--;
    memmove(&box->line[0], &box->line[1], box->number * sizeof box->line[0]);
    return line;
}

static int32_t message_of(uint32_t word)
{
    int32_t message;

    memcpy(&message, &word, sizeof message);
    return message;
}

static const char *enter_post(struct account *a, uint32_t step,
                              const struct finished_call *c)
{
    struct standing *box = &a->box[c->object];
    uint32_t number = a->lines;
    struct posting *line;

    if (box->number >= a->sizes.slots[c->object]) {
        return "a post found room in a full mailbox";
    }
    if (a->lines >= LEDGER_LINES) {
        return "the ledger is full";
    }
    line = add_line(a, c->object, step, c->caller, message_of(c->operand));
    if (c->kind == POST) {
        stand_behind(box, number);
    } else {
        line->passed = box->number;
        stand_ahead(box, number);
    }
    return NULL;
}

static const char *let_go(struct posting *line, struct fate fate)
{
    if (line->fate.what != PRESENT) {
        return "a posting went twice";
    }
    line->fate = fate;
    return NULL;
}

static const char *enter_fetch(struct account *a, uint32_t step,
                               const struct finished_call *c)
{
    struct standing *box = &a->box[c->object];
    struct posting *line;

    if (box->number == 0) {
        return "a fetch of what was not posted";
    }
    line = &a->line[leave_first(box)];
    if (line->message != message_of(c->answer.datum)) {
        return "a fetch of another message than the first";
    }
    return let_go(line, (struct fate){ FETCHED, step, c->caller });
}

static const char *enter_reset(struct account *a, uint32_t step,
                               const struct finished_call *c)
{
    struct standing *box = &a->box[c->object];
    struct fate fate = { LOST, step, c->caller };
    const char *wrong = NULL;

    while (box->number > 0 && wrong == NULL) {
        wrong = let_go(&a->line[leave_first(box)], fate);
    }
    return wrong;
}

/* ---- pools ------------------------------------------------------------ */

static const char *enter_alloc(struct account *a, uint32_t step,
                               const struct finished_call *c)
{
    struct pool_account *pool = &a->pool[c->object];

    if (c->answer.datum >= POOL_OBJECTS
        || pool->object[c->answer.datum].mark != FREE) {
        return "an alloc of an object that was not free";
    }
    pool->object[c->answer.datum]
        = (struct holding){ OUT, c->caller, step };
    return NULL;
}

static const char *enter_free(struct account *a, const struct finished_call *c)
{
    struct pool_account *pool = &a->pool[c->object];

    if (c->operand >= POOL_OBJECTS || pool->object[c->operand].mark != OUT) {
        return "a free of an object that was not out";
    }
    pool->object[c->operand] = (struct holding){ FREE, 0, 0 };
    return NULL;
}

static const char *enter_add(struct account *a, const struct finished_call *c)
{
    struct pool_account *pool = &a->pool[c->object];

    if (c->operand >= POOL_OBJECTS
        || pool->object[c->operand].mark != ABSENT) {
        return "an add of an object that was not absent";
    }
    pool->object[c->operand] = (struct holding){ FREE, 0, 0 };
    pool->added++;
    return NULL;
}

/* ---- a run ------------------------------------------------------------ */

static void begin_box(struct account *a, const struct tables *t, uint32_t m)
{
    const struct mailbox *box = &t->mailbox[m];

    for (uint32_t k = 0; k < box->count; k++) {
        stand_behind(&a->box[m], a->lines);
        add_line(a, m, 0, NOBODY,
                 box->slot[(box->read + k) % t->sizes.slots[m]]);
    }
}

static void begin_pool(struct pool_account *pool, const struct pool *from)
{
    for (uint32_t n = 0; n < POOL_OBJECTS; n++) {
        uint32_t thread = from->mark[n] == OUT ? NOBODY : 0;

        pool->object[n] = (struct holding){ from->mark[n], thread, 0 };
        pool->added += from->mark[n] != ABSENT;
    }
}

void begin_account(struct account *a, const struct tables *t)
{
    a->sizes = t->sizes;
    a->lines = 0;
    memset(a->box, 0, sizeof a->box);
    memset(a->pool, 0, sizeof a->pool);
    for (uint32_t m = 0; m < t->sizes.mailboxes; m++) {
        begin_box(a, t, m);
    }
    for (uint32_t p = 0; p < t->sizes.pools; p++) {
        begin_pool(&a->pool[p], &t->pool[p]);
    }
}

/* A call that finished with another message than 0 moved nothing. */
static const char *enter_call(struct account *a, uint32_t step,
                              const struct finished_call *c)
{
    if (c->answer.message != MSG_OK) {
        return NULL;
    }
    switch (c->kind) {
    case POST:
    case POST_AHEAD:
        return enter_post(a, step, c);
    case FETCH:
        return enter_fetch(a, step, c);
    case MAILBOX_RESET:
        return enter_reset(a, step, c);
    case POOL_ALLOC:
        return enter_alloc(a, step, c);
    case POOL_FREE:
        return enter_free(a, c);
    case POOL_ADD:
        return enter_add(a, c);
    default:
        return NULL;
    }
}

const char *enter_calls(struct account *a, uint32_t step,
                        const struct finished_calls *told)
{
    const char *wrong = NULL;

    for (uint32_t k = 0; k < told->number && wrong == NULL; k++) {
        wrong = enter_call(a, step, &told->call[k]);
    }
    return wrong;
}

/* ---- sums ------------------------------------------------------------- */

struct box_sums sums_of_box(const struct account *a, uint32_t m)
{
    struct box_sums sums = { 0, 0, 0, 0 };

    for (uint32_t k = 0; k < a->lines; k++) {
        if (a->line[k].mailbox == m) {
            sums.posted++;
            sums.fetched += a->line[k].fate.what == FETCHED;
            sums.lost += a->line[k].fate.what == LOST;
            sums.present += a->line[k].fate.what == PRESENT;
        }
    }
    return sums;
}

uint32_t objects_with(const struct account *a, uint32_t p, uint32_t mark)
{
    uint32_t number = 0;

    for (uint32_t n = 0; n < POOL_OBJECTS; n++) {
        number += a->pool[p].object[n].mark == mark;
    }
    return number;
}

/* ---- the tables ------------------------------------------------------- */

static const char *unlike_box(const struct account *a, const struct tables *t,
                              uint32_t m)
{
    const struct mailbox *box = &t->mailbox[m];
    const struct standing *standing = &a->box[m];
    struct box_sums sums = sums_of_box(a, m);

    if (box->count != standing->number
        || sums.posted != sums.fetched + sums.lost + box->count) {
        return "posted less fetched less lost is not what is there";
    }
    for (uint32_t k = 0; k < box->count; k++) {
        uint32_t place = (box->read + k) % t->sizes.slots[m];

        if (box->slot[place] != a->line[standing->line[k]].message) {
            return "a mailbox holds another message than was posted";
        }
    }
    return NULL;
}

static const char *unlike_pool(const struct account *a, const struct tables *t,
                               uint32_t p)
{
    uint32_t free = objects_with(a, p, FREE), out = objects_with(a, p, OUT);

    for (uint32_t n = 0; n < POOL_OBJECTS; n++) {
        if (t->pool[p].mark[n] != a->pool[p].object[n].mark) {
            return "an object is not marked as its history says";
        }
    }
    if (a->pool[p].added != free + out || t->pool[p].length != free) {
        return "added is not free and out together";
    }
    return NULL;
}

const char *unlike_tables(const struct account *a, const struct tables *t)
{
    const char *wrong = NULL;

    for (uint32_t m = 0; m < t->sizes.mailboxes && wrong == NULL; m++) {
        wrong = unlike_box(a, t, m);
    }
    for (uint32_t p = 0; p < t->sizes.pools && wrong == NULL; p++) {
        wrong = unlike_pool(a, t, p);
    }
    return wrong;
}

/* ---- the result ------------------------------------------------------- */

/* Of the kinds that move nothing only the kind is looked at. */
static bool asks_for(const struct finished_call *c, uint32_t kind,
                     uint32_t object, uint32_t operand)
{
    bool takes = kind == FETCH || kind == POOL_ALLOC || kind == MAILBOX_RESET;
    bool gives = kind == POST || kind == POST_AHEAD || kind == POOL_FREE
        || kind == POOL_ADD;

    return c->kind == kind && (!(takes || gives) || c->object == object)
        && (!gives || c->operand == operand);
}

/* The step's own call, or else the one that the thread's record kept. */
static bool was_asked(const struct finished_call *c, const struct moment *m)
{
    const struct step *s = m->step;
    const struct call *kept;

    if (c->caller == s->caller) {
        return asks_for(c, s->kind, s->object, s->a);
    }
    kept = &m->before->thread[c->caller].call;
    return asks_for(c, kept->kind, kept->object, kept->operand);
}

static bool was_answered(const struct finished_call *c, const struct moment *m)
{
    const struct answer *shown = c->caller == INTERRUPT
        ? &m->result->answer : &m->after->thread[c->caller].last;

    return c->answer.message == shown->message
        && c->answer.datum == shown->datum;
}

const char *unlike_result(const struct finished_calls *told,
                          const struct moment *m)
{
    uint32_t finished = 0;

    for (uint32_t k = 0; k < told->number; k++) {
        const struct finished_call *c = &told->call[k];
        uint32_t bit = c->caller == INTERRUPT ? 0 : UINT32_C(1) << c->caller;

        if ((finished & bit) != 0 || (bit == 0 && k > 0)) {
            return "two calls of one caller finished";
        }
        finished |= bit;
        if (!was_asked(c, m) || !was_answered(c, m)) {
            return "a finished call is not what the records show";
        }
    }
    return finished == m->result->finished
        ? NULL : "other calls finished than the result shows";
}

const char *follow_step(struct account *a, uint32_t step,
                        const struct finished_calls *told,
                        const struct moment *m)
{
    const char *wrong = unlike_result(told, m);

    if (wrong == NULL) {
        wrong = enter_calls(a, step, told);
    }
    return wrong == NULL ? unlike_tables(a, m->after) : wrong;
}
