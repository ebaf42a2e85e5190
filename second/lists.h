/* Lists of changes from step to step: what each step changed is listed, applied
   to the tables before it, and gives those after it. */
#ifndef LISTS_H
#define LISTS_H

#include "moment.h"

struct lists_seen {
    uint64_t entries;
    uint64_t empty;
    uint64_t new_slots; /* slots and list places that came into use */
    uint64_t most;      /* entries of one list */
};

/* Counts the list of a step. NULL, or what is wrong with it. Asked of tables
   that hang together. */
const char *follow_list(struct lists_seen *seen, const struct moment *m);
void print_lists(const struct lists_seen *seen);

#endif
