/*
 * Byte pipes, read from document 02 (4/13). The tables know nothing of them: a
 * pipe is a record of where its bytes stand in a buffer, which is lent anew at
 * each call with its length. As in model.h the fields are plain 32-bit
 * integers without padding, so that damaged pipes can be written down too.
 */
#ifndef PIPES_H
#define PIPES_H

#include <stddef.h>
#include <stdint.h>

/* "Up to 4 pipes", "a lent buffer of 1 to 256 bytes". */
enum { MAX_PIPES = 4, MAX_PIPE_BYTES = 256 };

struct pipe {
    uint32_t read;
    uint32_t write;
    uint32_t count;
    uint32_t reset; /* any value but 0 is the reset state */
};

struct pipes {
    uint32_t number; /* how many there are; none with a number above 4 */
    struct pipe pipe[MAX_PIPES];
};

/* The number of a refusal, or 0; and "the number moved", -2 in reset state,
   0 beside a refusal. */
struct transfer {
    uint32_t code;
    int32_t moved;
};

/* So many empty pipes. Refused with 14 above 4; nothing is written then. */
uint32_t fresh_pipes(struct pipes *all, uint32_t number);

/* Each is refused with 5, then 6, and then changes nothing. */
struct transfer write_pipe(struct pipes *all, uint32_t which, uint8_t *buffer,
                           size_t length, const uint8_t *offered,
                           size_t offered_length);
struct transfer read_pipe(struct pipes *all, uint32_t which,
                          const uint8_t *buffer, size_t length,
                          uint8_t *target, size_t target_length);
uint32_t reset_pipe(struct pipes *all, uint32_t which, size_t length);
uint32_t resume_pipe(struct pipes *all, uint32_t which, size_t length);

#endif
