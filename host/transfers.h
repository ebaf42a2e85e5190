/*
 * A call on a byte pipe by the archive and by the second program, side by side:
 * the answers are compared, and every byte of pipes, buffer, what is offered
 * and target. Guard bytes around all of them must stay.
 */
#ifndef TRANSFERS_H
#define TRANSFERS_H

#include "pair.h"
#include "pipes.h"

enum pipe_kind { PIPE_WRITE, PIPE_READ, PIPE_RESET, PIPE_RESUME, PIPE_KINDS };

/* What became of a call. */
enum pipe_outcome {
    PIPE_DONE,    /* moved a byte or more; reset or resumed */
    PIPE_WRAPPED, /* the same, and what it moved passed the buffer's end */
    PIPE_NOTHING, /* moved none: full or empty, or nothing was asked for */
    PIPE_IN_RESET,
    PIPE_REFUSED_5,
    PIPE_REFUSED_6,
    PIPE_OUTCOMES
};

/* Bytes that may be lent: some lengths differ from a short one's only in bits
   above the lowest 16. The guard bytes are before and behind them. */
enum { PIPE_GUARD = 16, PIPE_SPACE = 65536 + 512 };

struct area {
    uint8_t at[PIPE_GUARD + PIPE_SPACE + PIPE_GUARD];
};

/* `asked` is the length of what is offered, or of the target. Reset and resume
   are lent no memory, so that their `length` may be any. */
struct pipe_call {
    uint32_t kind;
    uint32_t pipe;
    size_t length;
    size_t asked;
};

/* How often each kind of call came to what. */
extern uint64_t pipe_calls[PIPE_KINDS][PIPE_OUTCOMES];

/* Makes the call; pipes and areas are then as the archive leaves them. `other`
   holds what is offered, or is the target. */
struct transfer both_pipe(struct where at, const struct pipe_call *c,
                          nil_pipes *pipes, struct area *buffer,
                          struct area *other);

/* Fresh pipes by both sides, over what is there. Returns the code. */
uint32_t both_fresh_pipes(struct where at, uint32_t number, nil_pipes *pipes);

#endif
