/*
 * Two sets of tables compared, and lists applied, by the archive and by the
 * second program, side by side: codes, lists and every byte of the tables must
 * be the same. Guard numbers around all of them must stay.
 */
#ifndef MATCHING_H
#define MATCHING_H

#include "apart.h"
#include "compare.h"

/* What came of all comparisons and lists so far. */
struct matches {
    uint64_t entries;
    uint64_t empty;        /* lists */
    uint64_t came_to_use;  /* slots and list places used in the second alone */
    uint64_t went_from_it; /* and in the first alone */
    uint64_t no_space;     /* rooms that were too small */
    uint64_t odd_lists;
    uint64_t passed_over; /* entries of these */
};

extern struct matches matches;

/* A list as both found it. */
struct found {
    uint32_t code;
    size_t entries;
    struct change list[ALL_FIELDS];
};

/* Compares, with rooms of all kinds; nothing is written where it is refused.
   An accepted list has its entries in order, is empty exactly where the tables
   are the same in what counts, and applied to the first gives the second. */
void both_compare(struct where at, const struct two_plants *two,
                  struct found *found);

/* Applies a list of odd entries to a plant, whatever it holds: some are of the
   list that was found, some name no field, have large values, or come twice. */
void both_apply_oddly(struct random *r, struct where at,
                      const struct plant *plant, const struct found *found);

#endif
