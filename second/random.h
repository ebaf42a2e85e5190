/* A small generator of random numbers, the same on every machine. */
#ifndef RANDOM_H
#define RANDOM_H

#include <stdbool.h>
#include <stdint.h>

struct random {
    uint64_t state;
};

uint32_t random_word(struct random *r);
/* 0 to n - 1; n above 0. */
uint32_t random_below(struct random *r, uint32_t n);
/* Both ends included. */
uint32_t random_between(struct random *r, uint32_t low, uint32_t high);
bool random_chance(struct random *r, uint32_t percent);

#endif
