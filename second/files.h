/* Saved tables in a file. */
#ifndef FILES_H
#define FILES_H

#include "saved.h"

/* False where it cannot be written; errno then says why, if it is not 0. */
bool write_saved(const char *name, const struct tables *t);

#endif
