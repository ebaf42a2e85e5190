/*
 * The fields that tables are compared by (document 02, 9/13), as the table of
 * docs/COMPARE.md has them. A field is named by its object, the object's number
 * and its own.
 */
#ifndef FIELDS_H
#define FIELDS_H

#include "model.h"

#include <stddef.h>

/* "In the order threads, references, queues, semaphores, mailboxes, pools,
   clock, step number." */
enum object {
    OBJECT_THREAD,
    OBJECT_REFERENCE,
    OBJECT_QUEUE,
    OBJECT_SEMAPHORE,
    OBJECT_MAILBOX,
    OBJECT_POOL,
    OBJECT_CLOCK,
    OBJECT_STEPS,
    OBJECTS /* their number; no object */
};

/* Of all objects, in use or not. */
enum { ALL_FIELDS = 611 };

struct field_name {
    uint32_t object;
    uint32_t number;
    uint32_t field;
};

/* A row of the table. Where it stands for several fields, `messages[0]` and so
   on, these are numbered on from the first. */
struct field {
    uint32_t object;
    uint32_t first;
    uint32_t several; /* 1 for one that stands alone */
    const char *word;
    bool is_signed; /* as it is shown */
    uint32_t bytes; /* a host's field has; here each has four */
    size_t offset;  /* in the tables, of object 0 */
};

const char *object_word(uint32_t object);
uint32_t object_rows(uint32_t object);
uint32_t rows_in_use(const struct sizes *z, uint32_t object);
uint32_t fields_of(uint32_t object);

/* A field, found by its name. */
struct spot {
    const struct field *row;
    uint32_t number; /* of the object */
    uint32_t place;  /* among the row's several fields */
};

/* False for a name that no field has. */
bool find_field(struct field_name name, struct spot *spot);

/* Whether it is a field of these tables: its object is in use, a slot holds a
   message, a place of a free list is below the list's length. Asked of tables
   that hang together. */
bool field_counts(const struct tables *t, const struct spot *spot);

/* Where a field stands in tables whose places are numbered (number_places). */
uint32_t *field_at(struct tables *t, const struct spot *spot);

#endif
