/* The second program keeps times, intervals and units apart by their types;
   here they are plain numbers, as a host has them. */
#include "times.h"

#include "random.h"
#include "ticks.h"

uint64_t conversions[2];

/* Numbers at the limits, near them, and any. */
static uint32_t some_number(struct random *r)
{
    static const uint32_t limits[] = {
        0, 1, 999, 1000, 1001, 9999, 10000, 10001, 429496, 429497, 999999,
        1000000, 1000001, 4294967, 4294968, 2147483647, 2147483648U,
        4294967293U, 4294967294U, 4294967295U
    };
    uint32_t count = sizeof limits / sizeof limits[0];

    return random_chance(r, 50) ? limits[random_below(r, count)]
         : random_chance(r, 50) ? random_below(r, 5000)
         : random_below(r, UINT32_MAX);
}

static void try_sums(struct where at, uint32_t a, uint32_t b, uint32_t c)
{
    struct system_time time = { a }, start = { b }, end = { c };

    expect(nil_time_add(a, b) == time_add(time, (struct interval){ b }).ticks,
           at, "time plus interval differs");
    expect(nil_time_diff(b, c) == time_difference(start, end).ticks, at,
           "end minus start differs");
    expect(nil_time_in_range(a, b, c) == time_in_range(time, start, end), at,
           "in range differs");
}

/* Whatever was there before is written over, refused or not. */
static void try_ticks(struct where at, uint32_t x, uint32_t frequency)
{
    static uint8_t (*const convert[])(uint32_t, uint32_t, uint32_t *) = {
        nil_s2i, nil_ms2i, nil_us2i
    };
    static const enum unit unit[] = { SECONDS, MILLISECONDS, MICROSECONDS };

    for (uint32_t k = 0; k < 3; k++) {
        uint32_t ticks = 77;
        struct interval other;
        uint32_t code = to_ticks(unit[k], x, &frequency, &other);

        expect(convert[k](x, frequency, &ticks) == code, at,
               "the codes of a conversion to ticks differ");
        expect(ticks == other.ticks, at, "the ticks differ");
        conversions[code != 0]++;
    }
}

static void try_units(struct where at, uint32_t x, uint32_t frequency)
{
    static uint8_t (*const convert[])(uint32_t, uint32_t, uint64_t *) = {
        nil_i2s, nil_i2ms, nil_i2us
    };
    static const enum unit unit[] = { SECONDS, MILLISECONDS, MICROSECONDS };

    for (uint32_t k = 0; k < 3; k++) {
        uint64_t value = 77, other;
        uint32_t code = from_ticks(unit[k], (struct interval){ x }, &frequency,
                                   &other);

        expect(convert[k](x, frequency, &value) == code, at,
               "the codes of a conversion from ticks differ");
        expect(value == other, at, "the values differ");
        conversions[code != 0]++;
    }
}

void try_times(struct where at)
{
    struct random r = { at.seed * UINT64_C(1000003) + at.number };
    uint32_t a = some_number(&r), b = some_number(&r), c = some_number(&r);

    try_sums(at, a, b, c);
    try_ticks(at, a, b);
    try_units(at, c, b);
}
