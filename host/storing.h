/*
 * Tables saved and loaded by the archive and by the second program, side by
 * side: the same bytes, the same codes, and nothing written where it is
 * refused. Guard bytes around all of them must stay.
 */
#ifndef STORING_H
#define STORING_H

#include "pair.h"
#include "random.h"

/* How often each code was answered to a save, and to a load. */
extern uint64_t save_codes[CODES];
extern uint64_t load_codes[CODES];

/* Saves a plant, whatever it holds, and loads it again: the same bytes come
   back. Then the file is damaged, and loaded over another plant. */
void both_store(struct random *r, struct where at, const struct plant *plant);

#endif
