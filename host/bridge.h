/*
 * The tables of nil.h and the second program's, each written as the other.
 * Any bytes go over and come back the same, so that damaged tables can be
 * compared too.
 */
#ifndef BRIDGE_H
#define BRIDGE_H

#include "nil.h"

#include "model.h"

nil_sizes nil_sizes_of(const struct sizes *z);
nil_request nil_request_of(const struct step *s);

void to_second(const nil_tables *from, const nil_clock *clock,
               struct tables *to);
void from_second(const struct tables *from, nil_tables *to, nil_clock *clock);

#endif
