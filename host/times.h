/* Time and its conversions through the archive and the second program. */
#ifndef TIMES_H
#define TIMES_H

#include "pair.h"

/* Each of the nine functions on random numbers and on numbers at their limits,
   which the place in the run determines. */
void try_times(struct where at);

/* How many conversions were accepted, and how many refused. */
extern uint64_t conversions[2];

#endif
