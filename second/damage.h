/* Damages to a trace, for the reader's refusals. */
#ifndef DAMAGE_H
#define DAMAGE_H

#include "random.h"

#include <stddef.h>

enum { TRACE_SPACE = 70000 };

/* Bytes with room to grow beyond the limit of 60,000. */
struct bytes {
    uint8_t at[TRACE_SPACE];
    size_t length;
};

void damage(struct random *r, struct bytes *b);

#endif
