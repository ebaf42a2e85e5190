/*
 * "Time": system time and intervals, wrapped, and the conversions between
 * ticks and the other units. Two one-member structures keep a time and an
 * interval apart: the compiler refuses one where the other is meant.
 */
#ifndef TICKS_H
#define TICKS_H

#include <stdbool.h>
#include <stdint.h>

struct system_time {
    uint32_t ticks;
};

struct interval {
    uint32_t ticks;
};

/* The number of each unit that makes a second. */
enum unit { SECONDS = 1, MILLISECONDS = 1000, MICROSECONDS = 1000000 };

struct system_time time_add(struct system_time time, struct interval by);
struct interval time_difference(struct system_time start,
                                struct system_time end);
bool time_in_range(struct system_time time, struct system_time start,
                   struct system_time end);

/* Without a frequency (NULL) it is DEFAULT_FREQUENCY. Both return 0, or 6 with
   value 0. */
uint32_t to_ticks(enum unit unit, uint32_t value, const uint32_t *frequency,
                  struct interval *out);
uint32_t from_ticks(enum unit unit, struct interval value,
                    const uint32_t *frequency, uint64_t *out);

#endif
