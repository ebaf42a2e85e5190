/*
 * The archive and the second program side by side: each step is made by both,
 * and every answer and every byte of the tables and the clock is compared.
 */
#ifndef PAIR_H
#define PAIR_H

#include "bridge.h"
#include "broken.h"
#include "causes.h"
#include "flags.h"
#include "signals.h"

/* What a host keeps of one plant, in one piece and without padding. */
struct plant {
    nil_tables tables;
    nil_clock clock;
};

_Static_assert(sizeof(struct plant) == sizeof(nil_tables) + sizeof(nil_clock),
               "a plant without padding");

enum { CODES = 17 };

/* Names a run in messages: a seed, and a number within it. */
struct where {
    uint64_t seed;
    uint64_t number;
};

/* Ends the program, with the message, where the test is false. */
void expect(bool fine, struct where at, const char *what);

/* Fresh tables by both sides, held together. The sizes may be refused. */
uint32_t both_fresh(struct where at, const struct sizes *z, uint32_t frequency,
                    struct plant *plant);

/* One step by both sides from the same tables, whatever they hold. The plant
   is then as the archive leaves it, and the code is returned. Before it both
   say which rule the tables break first: one exactly if the code is 1. Before
   and after it the archive says for a screen who is ready and who waits: what
   the words say, and where no rule is broken what a walk over the records
   says. A signal answers whether it counted, an accepted step loses no event
   flag and makes none up, and causes and step numbers are those of the wakings
   and the accepted steps. */
uint32_t both_step(struct where at, struct plant *plant, const struct step *s);

/* How often each rule was the first to be broken; 0 for none. */
extern uint64_t broken_rules[RULES];

/* Event waits that went on in all these steps. They are not of one run: which
   flags were late is not known. */
extern struct flags_seen event_waits;

/* Signals near the top in all these steps. */
extern struct signals_seen top_signals;

/* Wakings in all these steps, by their causes. */
extern struct causes_seen wakings;

#endif
