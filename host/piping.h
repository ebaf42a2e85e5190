/* Random pipe calls by the archive and by the second program: on pipes that
   live, and on pipes from outside. */
#ifndef PIPING_H
#define PIPING_H

#include "transfers.h"

/* What the pipe that is called is like. */
enum pipe_way {
    PIPE_LIVES,     /* as calls left it, and its buffer too */
    PIPE_FITS,      /* of any places and count that fit the buffer */
    PIPE_ONE_FIELD, /* the same, and one field gets another value */
    PIPE_LENGTH,    /* the same, and the buffer gets another length */
    PIPE_SMALL,     /* of small numbers */
    PIPE_BYTES,     /* of random bytes, the number of pipes too */
    PIPE_WAYS
};

const char *pipe_way_name(uint32_t way);

/* How often each code was answered, by the pipe; and by fresh pipes. */
extern uint64_t pipe_codes[PIPE_WAYS][CODES];
extern uint64_t pipe_fresh_codes[CODES];

/* So many calls on pipes that live. What comes out of a pipe must be what went
   in, in order, from its last reset on. Seeds count up, one for each set of
   pipes; the next one is returned. */
uint64_t run_pipes(uint64_t seed, uint64_t wanted);

/* One call on each of so many pipes from outside. */
uint64_t run_odd_pipes(uint64_t seed, uint64_t wanted);

/* Ends the program where a kind of call never came to something that it can
   come to. */
void expect_pipes_met(struct where at);

#endif
