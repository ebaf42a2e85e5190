/* Which rule of "Tables that hang together" is broken first. */
#ifndef BROKEN_H
#define BROKEN_H

#include "model.h"

/* The rules in the order of the paper's section, then those of the words and of
   causes; docs/RULES.md has them. */
enum rule {
    NO_RULE = 0,
    SIZES_RULE = 1,
    FREQUENCY_RULE = 2,
    COUNTER_RULE = 3,
    REFERENCE_RULE = 4,
    MAILBOX_RULE = 5,
    POOL_RULE = 6,
    TICKS_RULE = 7,
    CALL_RULE = 8,
    WAIT_RULE = 9,
    AWAITED_RULE = 10,
    PENDING_RULE = 11,
    RUNNING_RULE = 12,
    READY_RULE = 13,
    WAITING_RULE = 14,
    CAUSE_RULE = 15,
    RULES = 16
};

/* The first rule that is broken, and the first row that breaks it: 0 and 0
   where none is. The row of a counter and of a waiting word is its place:
   semaphores from 0, pools from 16, queues from 20, mailboxes' writers from 28,
   their readers from 32. */
struct broken {
    uint32_t rule;
    uint32_t row;
};

/* Safe on tables of any values. */
struct broken broken_rule(const struct tables *t);

#endif
