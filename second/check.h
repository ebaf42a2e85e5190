/*
 * What the hand-worked cases share: the tables that a case works on, and the
 * steps that it takes. Each step is followed by the result worked out on paper
 * from document 01's words: code, running, woken, finished, message, datum.
 */
#ifndef CHECK_H
#define CHECK_H

#include "model.h"

#include <stddef.h>

/* The tables of the case at work. */
extern struct tables t;

/* Names the case at work, for what is printed where a test fails. */
void about(const char *name);

void verify(bool fine, const char *file, int line, const char *what);

#define VERIFY(condition) verify(condition, __FILE__, __LINE__, #condition)

/* Sizes T, S, Q, R, M, P; every mailbox has the given slots. */
void start(const char *name, struct sizes z, uint32_t slots);

#define START(name, slots, ...) \
    start(name, (struct sizes){ __VA_ARGS__, { 0 } }, slots)

void run(const char *file, int line, struct step s, struct result want);

/* kind, caller, object, a, timeout -> code, running, woken, finished,
   message, datum */
#define DO(k, c, o, a, time, code, running, woken, done, message, datum) \
    run(__FILE__, __LINE__, (struct step){ k, c, o, a, time }, \
        (struct result){ code, running, woken, done, { message, datum }, 0 })

#define FF INTERRUPT
#define MINUS(n) (UINT32_MAX - (n) + 1u)

bool last_is(uint32_t i, int32_t message, uint32_t datum);
bool call_is(uint32_t i, uint32_t kind, uint32_t object, uint32_t operand,
             uint32_t timeout);
bool waits(uint32_t i, uint32_t state, uint32_t tag, uint32_t index);
bool box_is(uint32_t m, uint32_t read, uint32_t write, uint32_t count);
void ticks(uint32_t n);

/* The cases, a file each. */
void check_waits(void);
void check_signals(void);
void check_times(void);
void check_events(void);
void check_mailboxes(void);
void check_pools(void);
void check_refusals(void);
void check_tables(void);
void check_words(void);
void check_traces(void);
void check_pipes(void);
void check_account(void);
void check_causes(void);
void check_compare(void);
void check_saved(void);

#endif
