/* What the parts of the bench share. */
#ifndef BENCH_H
#define BENCH_H

#include <stdint.h>

/* This process's own work so far. */
double seconds(void);

/* The time of a pipe's transfer by both sides: so many transfers a round. */
void bench_pipes(uint32_t number, uint32_t rounds);

#endif
