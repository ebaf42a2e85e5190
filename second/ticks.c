/* Time arithmetic and conversions. */
#include "ticks.h"

#include "model.h"

/* "Time plus interval and end minus start wrap." */
struct system_time time_add(struct system_time time, struct interval by)
{
    return (struct system_time){ time.ticks + by.ticks };
}

struct interval time_difference(struct system_time start,
                                struct system_time end)
{
    return (struct interval){ end.ticks - start.ticks };
}

/* "A time is in range if (time - start) is less than (end - start), both
   wrapped." With start = end nothing is in range. */
bool time_in_range(struct system_time time, struct system_time start,
                   struct system_time end)
{
    return time_difference(start, time).ticks
        < time_difference(start, end).ticks;
}

static uint64_t divided_upward(uint64_t value, uint64_t by)
{
    return value / by + (value % by != 0);
}

/* 0 stands for a frequency outside "1 to 1,000,000". */
static uint32_t usable_frequency(const uint32_t *given)
{
    uint32_t frequency = given ? *given : DEFAULT_FREQUENCY;

    return frequency <= MAX_FREQUENCY ? frequency : 0;
}

/* The largest product is 4294967295 * 1,000,000, well within 64 bits. */
uint32_t to_ticks(enum unit unit, uint32_t value, const uint32_t *frequency,
                  struct interval *out)
{
    uint64_t f = usable_frequency(frequency);
    uint64_t ticks = divided_upward(value * f, (uint64_t)unit);

    out->ticks = 0;
    if (f == 0 || ticks > LONGEST) {
        return BAD_VALUE;
    }
    out->ticks = (uint32_t)ticks;
    return ACCEPTED;
}

uint32_t from_ticks(enum unit unit, struct interval value,
                    const uint32_t *frequency, uint64_t *out)
{
    uint64_t f = usable_frequency(frequency);

    *out = 0;
    if (f == 0 || value.ticks == INFINITE) {
        return BAD_VALUE;
    }
    *out = divided_upward((uint64_t)value.ticks * (uint64_t)unit, f);
    return ACCEPTED;
}
