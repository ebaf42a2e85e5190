/* A pipe moves its bytes one by one, each to or from the place that is next. */
#include "pipes.h"

#include "model.h"

uint32_t fresh_pipes(struct pipes *all, uint32_t number)
{
    static const struct pipes none;

    if (number > MAX_PIPES) {
        return BAD_SIZE;
    }
    *all = none;
    all->number = number;
    return ACCEPTED;
}

/* "As a mailbox's fit its slots": hang.c has the same of a mailbox. */
static bool fits(const struct pipe *p, uint32_t length)
{
    return p->read < length && p->write < length && p->count <= length
        && p->write == (p->read + p->count) % length;
}

/* "5 for a pipe that isn't there or a buffer length outside 1 to 256; then 6
   if its places or count don't fit the buffer." */
static uint32_t refusal_of_pipe(const struct pipes *all, uint32_t which,
                                size_t length)
{
    if (all->number > MAX_PIPES || which >= all->number) {
        return BAD_OBJECT;
    }
    if (length < 1 || length > MAX_PIPE_BYTES) {
        return BAD_OBJECT;
    }
    return fits(&all->pipe[which], (uint32_t)length) ? ACCEPTED : BAD_VALUE;
}

/* "A transfer that passes the buffer's end goes on at its start." */
static uint32_t next_place(uint32_t place, size_t length)
{
    return place + 1 == length ? 0 : place + 1;
}

struct transfer write_pipe(struct pipes *all, uint32_t which, uint8_t *buffer,
                           size_t length, const uint8_t *offered,
                           size_t offered_length)
{
    struct transfer done = { refusal_of_pipe(all, which, length), 0 };
    struct pipe *p;

    if (done.code != ACCEPTED) {
        return done;
    }
    p = &all->pipe[which];
    if (p->reset != 0) {
        done.moved = MSG_RESET;
        return done;
    }
    while ((size_t)done.moved < offered_length && p->count < length) {
        buffer[p->write] = offered[done.moved++];
        p->write = next_place(p->write, length);
        p->count++;
    }
    return done;
}

struct transfer read_pipe(struct pipes *all, uint32_t which,
                          const uint8_t *buffer, size_t length,
                          uint8_t *target, size_t target_length)
{
    struct transfer done = { refusal_of_pipe(all, which, length), 0 };
    struct pipe *p;

    if (done.code != ACCEPTED) {
        return done;
    }
    p = &all->pipe[which];
    if (p->reset != 0) {
        done.moved = MSG_RESET;
        return done;
    }
    while ((size_t)done.moved < target_length && p->count > 0) {
        target[done.moved++] = buffer[p->read];
        p->read = next_place(p->read, length);
        p->count--;
    }
    return done;
}

/* "Reset empties a pipe, returns both places to 0 and sets its reset state."
   The bytes in the buffer stay. */
uint32_t reset_pipe(struct pipes *all, uint32_t which, size_t length)
{
    uint32_t code = refusal_of_pipe(all, which, length);

    if (code == ACCEPTED) {
        all->pipe[which] = (struct pipe){ 0, 0, 0, 1 };
    }
    return code;
}

uint32_t resume_pipe(struct pipes *all, uint32_t which, size_t length)
{
    uint32_t code = refusal_of_pipe(all, which, length);

    if (code == ACCEPTED) {
        all->pipe[which].reset = 0;
    }
    return code;
}
