/* Counters near the top, causes, step numbers and event waits, as tables from
   outside may have them, and no step leaves some of them: how they get into good
   tables, and how they go on there. */
#ifndef ODD_H
#define ODD_H

#include "pair.h"
#include "random.h"

/* Takes a counter of good tables near the top, changes a cause or a step number,
   or gives a thread an event wait, by one of spoil.h's ways. The words are left
   to be mended. */
void spoil_oddly(struct random *r, uint32_t way, nil_tables *t);

/* Each semaphore at the top or one below it is signalled twice, by the running
   thread or an interrupt. All steps are made by both sides. */
void signal_tops(struct random *r, struct where at, struct plant *plant);

/* Steps by both sides until the step number has come to its end, and two more,
   where it stays. */
void count_to_end(struct where at, struct plant *plant);

/* Whoever runs sleeps, until every event wait that was ready has gone on.
   Threads are signalled meanwhile. All steps are made by both sides. */
void let_go_on(struct random *r, struct where at, struct plant *plant);

#endif
