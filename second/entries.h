/* The entries of a list in words: `WORD NUMBER FIELD OLD NEW`, a line each. */
#ifndef ENTRIES_H
#define ENTRIES_H

#include "compare.h"

/* Room for any entry's line, without its line end and with its last 0. */
enum { ENTRY_TEXT = 80 };

/* False, with nothing written, for a name that no field has. */
bool entry_text(const struct change *c, char *text);

/* Reads a line as entry_text writes it, and takes no other. */
bool read_entry(const char *text, struct change *c);

#endif
