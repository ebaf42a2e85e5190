/* Transfers through a pipe, writes and reads by turns, so that each moves all
   that it asks for. Some go past the buffer's end. */
#include "bench.h"

#include "nil.h"
#include "pipes.h"

#include <stdbool.h>
#include <stdio.h>
#include <stdlib.h>
#include <string.h>

/* The first place: no multiple of a transfer's length from the end. */
enum { BYTES = NIL_PIPE_BYTES, FIRST = 100 };

static uint8_t buffer[BYTES], offered[BYTES], target[BYTES];

/* Both return how many bytes came out. */
static uint64_t play_proved(uint32_t number, size_t length)
{
    nil_pipes p = { { { FIRST, FIRST, 0, 0 } }, 1 };
    uint64_t sum = 0;
    int32_t moved;

    for (uint32_t k = 0; k < number; k += 2) {
        nil_pipe_write(&p, 0, buffer, BYTES, offered, length, &moved);
        nil_pipe_read(&p, 0, buffer, BYTES, target, length, &moved);
        sum += (uint64_t)moved;
    }
    return sum;
}

static uint64_t play_second(uint32_t number, size_t length)
{
    struct pipes p = { 1, { { FIRST, FIRST, 0, 0 } } };
    uint64_t sum = 0;

    for (uint32_t k = 0; k < number; k += 2) {
        write_pipe(&p, 0, buffer, BYTES, offered, length);
        sum += (uint64_t)read_pipe(&p, 0, buffer, BYTES, target, length).moved;
    }
    return sum;
}

/* Nanoseconds a transfer: the shortest of the rounds. */
static double time_of(uint64_t (*play)(uint32_t, size_t), uint32_t number,
                      size_t length, uint32_t rounds)
{
    uint64_t pairs = (number + UINT64_C(1)) / 2;
    double best = 0;

    memset(target, 0, sizeof target);
    for (uint32_t k = 0; k < rounds; k++) {
        double began = seconds(), took;
        bool fine = play(number, length) == pairs * length;

        took = (seconds() - began) * 1e9 / (2.0 * (double)pairs);
        if (!fine || memcmp(target, offered, length) != 0) {
            printf("bench: a pipe moves other bytes\n");
            exit(1);
        }
        if (k == 0 || took < best) {
            best = took;
        }
    }
    return best;
}

void bench_pipes(uint32_t number, uint32_t rounds)
{
    static const size_t lengths[] = { 16, BYTES };

    for (uint32_t k = 0; k < BYTES; k++) {
        offered[k] = (uint8_t)(k * 7 + 1);
    }
    printf("transfers through a pipe of 256 bytes\n%8s %12s %12s %7s\n",
           "bytes", "proved ns", "second ns", "ratio");
    for (uint32_t k = 0; k < 2; k++) {
        double proved = time_of(play_proved, number, lengths[k], rounds);
        double second = time_of(play_second, number, lengths[k], rounds);

        printf("%8u %12.0f %12.0f %7.2f\n", (unsigned)lengths[k], proved,
               second, proved / second);
    }
}
