/*
 * Saved tables, as docs/COMPARE.md has them: a layout number and a checksum of
 * four bytes each, then a host's tables and clock as they lie there, all
 * numbers with the lowest byte first.
 */
#ifndef SAVED_H
#define SAVED_H

#include "model.h"

#include <stddef.h>

enum {
    SAVED_LAYOUT = 3, /* the number of the host's layout */
    SAVED_HEAD = 8,
    SAVED_TABLES = 1572,
    SAVED_CLOCK = 8,
    SAVED_BYTES = SAVED_HEAD + SAVED_TABLES + SAVED_CLOCK
};

/* RFC 1950's checksum. */
uint32_t adler32(const uint8_t *bytes, size_t length);

/* Refused with 16 for less room than SAVED_BYTES; nothing is written then. */
uint32_t save_tables(const struct tables *t, uint8_t *file, size_t room);

/* Refused with 11 for another layout number or none, 12 for a file that ends
   too early, 13 for one that goes on, 6 for another checksum; the tables are
   then left alone. They may hold anything. */
uint32_t load_tables(struct tables *t, const uint8_t *file, size_t length);

#endif
