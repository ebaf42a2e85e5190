/* The second program has pipes and areas of its own, made from the archive's
   before each call. */
#include "transfers.h"

#include <string.h>

uint64_t pipe_calls[PIPE_KINDS][PIPE_OUTCOMES];

/* ---- pipes of both sides ---------------------------------------------- */

/* Guard bytes around the pipes too; without padding. */
struct guarded {
    uint16_t before[4];
    nil_pipes pipes;
    uint16_t after[4];
};

static struct pipes second_pipes(const nil_pipes *from)
{
    struct pipes to = { from->number, { { 0, 0, 0, 0 } } };

    for (uint32_t k = 0; k < NIL_PIPES; k++) {
        const nil_pipe *p = &from->pipes[k];

        to.pipe[k] = (struct pipe){ p->read, p->write, p->count, p->reset };
    }
    return to;
}

static struct guarded guarded_pipes(const struct pipes *from)
{
    static const struct guarded margins = {
        { 1, 22, 333, 4444 }, { { { 0, 0, 0, 0 } }, 0 }, { 5555, 666, 77, 8 }
    };
    struct guarded to = margins;

    to.pipes.number = (uint16_t)from->number;
    for (uint32_t k = 0; k < NIL_PIPES; k++) {
        const struct pipe *p = &from->pipe[k];

        to.pipes.pipes[k] = (nil_pipe){ (uint16_t)p->read, (uint16_t)p->write,
                                        (uint16_t)p->count,
                                        (uint16_t)p->reset };
    }
    return to;
}

static void expect_same_pipes(struct where at, const struct guarded *proved,
                              const struct pipes *second)
{
    struct guarded other = guarded_pipes(second);

    expect(memcmp(proved, &other, sizeof other) == 0, at,
           "the bytes of the pipes differ");
}

uint32_t both_fresh_pipes(struct where at, uint32_t number, nil_pipes *pipes)
{
    struct pipes second = second_pipes(pipes);
    struct guarded proved = guarded_pipes(&second);
    uint32_t code = fresh_pipes(&second, number);

    expect(nil_pipe_fresh(&proved.pipes, number) == code, at,
           "fresh pipes: the codes differ");
    expect_same_pipes(at, &proved, &second);
    *pipes = proved.pipes;
    return code;
}

/* ---- a call ----------------------------------------------------------- */

static struct transfer call_proved(const struct pipe_call *c, nil_pipes *p,
                                   struct area *buffer, struct area *other)
{
    uint8_t *bytes = buffer->at + PIPE_GUARD;
    uint8_t *asked = other->at + PIPE_GUARD;
    struct transfer done = { 0, 0 };

    if (c->kind <= PIPE_READ) {
        done.moved = 77; /* so that a number left unwritten shows */
    }
    switch (c->kind) {
    case PIPE_WRITE:
        done.code = nil_pipe_write(p, c->pipe, bytes, c->length, asked,
                                   c->asked, &done.moved);
        break;
    case PIPE_READ:
        done.code = nil_pipe_read(p, c->pipe, bytes, c->length, asked,
                                  c->asked, &done.moved);
        break;
    case PIPE_RESET:
        done.code = nil_pipe_reset(p, c->pipe, c->length);
        break;
    default:
        done.code = nil_pipe_resume(p, c->pipe, c->length);
        break;
    }
    return done;
}

static struct transfer call_second(const struct pipe_call *c, struct pipes *p,
                                   struct area *buffer, struct area *other)
{
    uint8_t *bytes = buffer->at + PIPE_GUARD;
    uint8_t *asked = other->at + PIPE_GUARD;
    struct transfer done = { 0, 0 };

    switch (c->kind) {
    case PIPE_WRITE:
        return write_pipe(p, c->pipe, bytes, c->length, asked, c->asked);
    case PIPE_READ:
        return read_pipe(p, c->pipe, bytes, c->length, asked, c->asked);
    case PIPE_RESET:
        done.code = reset_pipe(p, c->pipe, c->length);
        return done;
    default:
        done.code = resume_pipe(p, c->pipe, c->length);
        return done;
    }
}

/* By the pipe as it was before the call. */
static enum pipe_outcome outcome_of(const struct pipe_call *c,
                                    const struct pipes *before,
                                    struct transfer done)
{
    uint32_t place;

    if (done.code != 0) {
        return done.code == NIL_BAD_OBJECT ? PIPE_REFUSED_5 : PIPE_REFUSED_6;
    }
    if (c->kind >= PIPE_RESET) {
        return PIPE_DONE;
    }
    if (done.moved <= 0) {
        return done.moved < 0 ? PIPE_IN_RESET : PIPE_NOTHING;
    }
    place = c->kind == PIPE_WRITE ? before->pipe[c->pipe].write
                                  : before->pipe[c->pipe].read;
    return place + (size_t)done.moved > c->length ? PIPE_WRAPPED : PIPE_DONE;
}

/* ---- both ------------------------------------------------------------- */

/* Of an area as it is lent: the guard bytes, and what is between them. */
static size_t with_guards(size_t length)
{
    return PIPE_GUARD + length + PIPE_GUARD;
}

/* The guard bytes, which the second program's code might spoil in the same
   way: so they are held to what they were. A call that moves nothing leaves
   the rest too. */
static void expect_kept(struct where at, const struct area *now,
                        const struct area *before, size_t length, bool all)
{
    size_t end = PIPE_GUARD + length;

    expect(memcmp(now->at, before->at, PIPE_GUARD) == 0
           && memcmp(now->at + end, before->at + end, PIPE_GUARD) == 0, at,
           "a byte outside what was lent changed");
    expect(!all || memcmp(now->at, before->at, end) == 0, at,
           "a call that moves nothing changed a byte");
}

static void expect_same_area(struct where at, const struct area *proved,
                             const struct area *second, size_t length,
                             const char *what)
{
    expect(memcmp(proved->at, second->at, with_guards(length)) == 0, at, what);
}

struct transfer both_pipe(struct where at, const struct pipe_call *c,
                          nil_pipes *pipes, struct area *buffer,
                          struct area *other)
{
    static struct area old_buffer, old_other, his_buffer, his_other;
    bool lends = c->kind <= PIPE_READ;
    size_t length = lends ? c->length : 0, asked = lends ? c->asked : 0;
    struct pipes old = second_pipes(pipes), his = old;
    struct guarded proved = guarded_pipes(&old);
    struct transfer done, other_done;

    memcpy(old_buffer.at, buffer->at, with_guards(length));
    memcpy(his_buffer.at, buffer->at, with_guards(length));
    memcpy(old_other.at, other->at, with_guards(asked));
    memcpy(his_other.at, other->at, with_guards(asked));
    done = call_proved(c, &proved.pipes, buffer, other);
    other_done = call_second(c, &his, &his_buffer, &his_other);
    expect(done.code == other_done.code, at, "the codes of a pipe differ");
    expect(done.moved == other_done.moved, at, "the bytes moved differ");
    expect(done.code == 0 || done.moved == 0, at, "a refusal moved bytes");
    expect_same_pipes(at, &proved, &his);
    expect_same_area(at, buffer, &his_buffer, length, "the buffers differ");
    expect_same_area(at, other, &his_other, asked,
                     "what is offered, or the target, differs");
    expect_kept(at, buffer, &old_buffer, length,
                done.moved <= 0 || c->kind == PIPE_READ);
    expect_kept(at, other, &old_other, asked,
                done.moved <= 0 || c->kind == PIPE_WRITE);
    if (done.code != 0 || done.moved < 0) {
        expect_same_pipes(at, &proved, &old);
    }
    *pipes = proved.pipes;
    pipe_calls[c->kind][outcome_of(c, &old, done)]++;
    return done;
}
