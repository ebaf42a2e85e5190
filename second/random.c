/* The splitmix64 sequence: one addition and a mixing of the bits. */
#include "random.h"

uint32_t random_word(struct random *r)
{
    uint64_t z = r->state += UINT64_C(0x9e3779b97f4a7c15);

    z = (z ^ (z >> 30)) * UINT64_C(0xbf58476d1ce4e5b9);
    z = (z ^ (z >> 27)) * UINT64_C(0x94d049bb133111eb);
    return (uint32_t)((z ^ (z >> 31)) >> 32);
}

uint32_t random_below(struct random *r, uint32_t n)
{
    return (uint32_t)(((uint64_t)random_word(r) * n) >> 32);
}

uint32_t random_between(struct random *r, uint32_t low, uint32_t high)
{
    return low + random_below(r, high - low + 1);
}

bool random_chance(struct random *r, uint32_t percent)
{
    return random_below(r, 100) < percent;
}
