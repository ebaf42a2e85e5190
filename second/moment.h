/* A step of a run, with the tables before and after it. */
#ifndef MOMENT_H
#define MOMENT_H

#include "model.h"

struct moment {
    const struct tables *before;
    const struct step *step;
    const struct result *result;
    const struct tables *after;
};

#endif
