/*
 * The account of a run (document 02, 5/13: nothing lost, nothing invented).
 * A ledger is kept of the finished calls alone: what was posted to each mailbox
 * and what became of it, who has which object of each pool. After each step it
 * is held against the tables, which store no count for it.
 */
#ifndef ACCOUNT_H
#define ACCOUNT_H

#include "moment.h"

/* A trace has fewer than 5,000 steps, and a step begins one call at most; the
   messages present at the beginning come before them. */
enum { LEDGER_LINES = 5000 + MAX_MAILBOXES * MAX_SLOTS };

enum { PRESENT, FETCHED, LOST };

/* What became of a posting; step and thread of one that went. */
struct fate {
    uint32_t what;
    uint32_t step;
    uint32_t thread; /* 255: an interrupt */
};

/* A posting: where, when, by whom, what, and what became of it. */
struct posting {
    uint32_t mailbox;
    uint32_t step;   /* 0: it was there at the beginning */
    uint32_t thread; /* 255: an interrupt, or not known */
    int32_t message;
    uint32_t passed; /* how many messages a post ahead went before */
    struct fate fate;
};

/* The postings that are present, as numbers of lines, the next one first. */
struct standing {
    uint32_t number;
    uint32_t line[MAX_SLOTS];
};

/* An object's mark, as its history tells it; of one out, to whom and when. */
struct holding {
    uint32_t mark;
    uint32_t thread;
    uint32_t step;
};

struct pool_account {
    uint32_t added;
    struct holding object[POOL_OBJECTS];
};

struct account {
    struct sizes sizes;
    uint32_t lines;
    struct posting line[LEDGER_LINES];
    struct standing box[MAX_MAILBOXES];
    struct pool_account pool[MAX_POOLS];
};

/* From tables that hang together. Messages present count as posted, objects
   free and out as added, those out as handed over. */
void begin_account(struct account *a, const struct tables *t);

/* Enters the calls that a step finished. NULL, or what cannot be so: a fetch of
   what was not posted, an object handed over that was not free, and the like. */
const char *enter_calls(struct account *a, uint32_t step,
                        const struct finished_calls *told);

/* NULL, or what of the tables is not what the ledger says. */
const char *unlike_tables(const struct account *a, const struct tables *t);

/* NULL, or why the calls told are not those that the result and the records
   show: who finished, what each had asked for, what each was answered. */
const char *unlike_result(const struct finished_calls *told,
                          const struct moment *m);

/* An accepted step: its calls are held against its result and entered, and then
   the ledger against the tables. NULL, or what was found first. */
const char *follow_step(struct account *a, uint32_t step,
                        const struct finished_calls *told,
                        const struct moment *m);

/* The sums of a mailbox and of a pool, counted from the ledger. */
struct box_sums {
    uint32_t posted;
    uint32_t fetched;
    uint32_t lost;
    uint32_t present;
};
struct box_sums sums_of_box(const struct account *a, uint32_t m);
uint32_t objects_with(const struct account *a, uint32_t p, uint32_t mark);

#endif
