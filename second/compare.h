/*
 * Two sets of tables compared, read from document 02 (9/13): a list of what
 * differs, which applied to the first gives the second.
 */
#ifndef COMPARE_H
#define COMPARE_H

#include "fields.h"

/* "One entry for each field that differs, with the object, its number, the
   field, old and new." Signed values stand as their 32 bits. */
struct change {
    struct field_name name;
    uint32_t old_value;
    uint32_t new_value;
};

/* Lists what differs, in the order of the names. Room is so many entries.
   Refused with 1, 5 or 16; list and number are then left alone. */
uint32_t compare_tables(const struct tables *first,
                        const struct tables *second, struct change *list,
                        size_t room, size_t *entries);

/* Stores each entry's new value in its field, in use or not, cut to a host's
   width of it, in the list's order; then makes the words anew. The tables may
   hold anything. Entries whose names no field has are passed over; returns how
   many. */
size_t apply_changes(struct tables *t, const struct change *list,
                     size_t entries);

/* Whether all that counts is the same, the words of ready and waiting threads
   too. Asked of tables that hang together. */
bool same_in_what_counts(const struct tables *a, const struct tables *b);

#endif
