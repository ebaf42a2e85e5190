/* Lengths, places and numbers are random, and often at their limits. */
#include "piping.h"

#include "random.h"

#include <string.h>

enum { LIFE = 200, ODD = 100, LITTLE = 512 };

uint64_t pipe_codes[PIPE_WAYS][CODES];
uint64_t pipe_fresh_codes[CODES];

const char *pipe_way_name(uint32_t way)
{
    static const char *const names[PIPE_WAYS] = {
        "pipes that live", "a pipe that fits", "one field of a pipe",
        "another length", "small numbers", "all bytes of pipes"
    };

    return names[way];
}

/* ---- random numbers --------------------------------------------------- */

static uint32_t some_buffer_length(struct random *r)
{
    static const uint32_t limits[] = { 1, 2, 255, 256 };

    return random_chance(r, 15) ? limits[random_below(r, 4)]
         : random_chance(r, 40) ? random_between(r, 1, 16)
         : random_between(r, 1, NIL_PIPE_BYTES);
}

/* Some are a good length plus what 16 bits do not hold. */
static size_t some_bad_length(struct random *r, uint32_t good)
{
    static const uint32_t bad[] = { 0, 257, 258, 0, 257, LITTLE };
    uint32_t which = random_below(r, 1000);

    return which < 980 ? bad[which % 6]
         : which < 990 ? 65536u + good
         : 256u + good;
}

/* Of what is offered, or of the target: around `most`, or any. */
static size_t some_asked(struct random *r, uint32_t most)
{
    uint32_t chance = random_below(r, 1000);

    return chance < 50 ? 0
         : chance < 600 ? random_below(r, most + 1)
         : chance < 800 ? most + random_below(r, 3)
         : chance < 998 ? random_below(r, 300)
         : 65536 + random_below(r, 300);
}

/* A pipe that is there, mostly, of so many. */
static uint32_t some_pipe(struct random *r, uint32_t number)
{
    static const uint32_t none[] = {
        4, 5, 255, 256, 65535, 65536, UINT32_C(2147483648), UINT32_MAX
    };

    if (number > 0 && random_chance(r, 94)) {
        return random_below(r, number < NIL_PIPES ? number : NIL_PIPES);
    }
    return random_chance(r, 50) ? number : none[random_below(r, 8)];
}

/* Reset and resume are lent no memory: their lengths may be beyond any. */
static void stretch(struct random *r, struct pipe_call *c)
{
    static const size_t lengths[] = {
        (size_t)1 << 32, ((size_t)1 << 32) + 8, (size_t)-1, (size_t)1 << 63
    };

    if (c->kind >= PIPE_RESET && random_chance(r, 5)) {
        c->length = lengths[random_below(r, 4)];
    }
}

static void fill(struct random *r, struct area *a, size_t length)
{
    size_t end = PIPE_GUARD + length + PIPE_GUARD;

    for (size_t k = 0; k < end; k += sizeof(uint32_t)) {
        uint32_t word = random_word(r);

        memcpy(a->at + k, &word,
               end - k < sizeof word ? end - k : sizeof word);
    }
}

static void try_fresh(struct random *r, struct where at, nil_pipes *pipes)
{
    static const uint32_t numbers[] = {
        5, 6, 255, 256, 260, 65535, 65536, 65540, UINT32_MAX
    };
    uint32_t number = random_chance(r, 60) ? random_below(r, 6)
                                           : numbers[random_below(r, 9)];

    pipe_fresh_codes[both_fresh_pipes(at, number, pipes)]++;
}

static void note(struct where at, uint32_t way, struct transfer done)
{
    expect(way > PIPE_FITS || done.code != NIL_BAD_VALUE, at,
           "a pipe that fits its buffer was refused with 6");
    pipe_codes[way][done.code]++;
}

/* ---- pipes that live -------------------------------------------------- */

/* A set of pipes; of each the length of its buffer, and how many bytes ever
   went in and out, those lost at a reset counted as out. */
struct life {
    nil_pipes pipes;
    uint32_t length[NIL_PIPES];
    uint64_t in[NIL_PIPES];
    uint64_t out[NIL_PIPES];
};

static struct area buffers[NIL_PIPES], other;

/* The byte that ever goes into a pipe as number k. */
static uint8_t byte_of(uint64_t seed, uint32_t pipe, uint64_t k)
{
    return (uint8_t)(((k + seed * 4 + pipe + 1)
                      * UINT64_C(0x9e3779b97f4a7c15)) >> 56);
}

static void offer(uint64_t seed, const struct life *life,
                  const struct pipe_call *c)
{
    uint64_t next = c->pipe < NIL_PIPES ? life->in[c->pipe] : 0;

    for (size_t k = 0; k < c->asked; k++) {
        other.at[PIPE_GUARD + k] = byte_of(seed, c->pipe, next + k);
    }
}

static bool came_in_order(uint64_t seed, const struct life *life,
                          const struct pipe_call *c, size_t moved)
{
    uint64_t next = life->out[c->pipe];

    for (size_t k = 0; k < moved; k++) {
        if (other.at[PIPE_GUARD + k] != byte_of(seed, c->pipe, next + k)) {
            return false;
        }
    }
    return true;
}

/* What went in and did not come out is in it still. */
static void follow(struct where at, struct life *life,
                   const struct pipe_call *c, struct transfer done)
{
    size_t moved = done.moved > 0 ? (size_t)done.moved : 0;

    if (done.code != 0) {
        return;
    }
    if (c->kind == PIPE_WRITE) {
        life->in[c->pipe] += moved;
    } else if (c->kind == PIPE_READ) {
        expect(came_in_order(at.seed, life, c, moved), at,
               "a byte was lost or made up");
        life->out[c->pipe] += moved;
    } else if (c->kind == PIPE_RESET) {
        life->out[c->pipe] = life->in[c->pipe];
    }
    expect(life->in[c->pipe] - life->out[c->pipe]
               == life->pipes.pipes[c->pipe].count, at,
           "a pipe's count is not what went in and not out");
}

/* In reset state it does not stay long. */
static uint32_t some_kind(struct random *r, bool in_reset)
{
    uint32_t chance = random_below(r, 100);

    return chance < (in_reset ? 30 : 2) ? PIPE_RESUME
         : chance < (in_reset ? 35 : 4) ? PIPE_RESET
         : chance < 52 ? PIPE_READ : PIPE_WRITE;
}

static struct pipe_call some_call(struct random *r, const struct life *life)
{
    struct pipe_call c = { 0, some_pipe(r, life->pipes.number), 0, 0 };
    uint32_t row = c.pipe % NIL_PIPES;
    const nil_pipe *p = &life->pipes.pipes[row];
    uint32_t length = life->length[row];

    c.kind = some_kind(r, p->reset != 0);
    c.length = random_chance(r, 96) ? length : some_bad_length(r, length);
    c.asked = some_asked(r, c.kind == PIPE_READ ? p->count
                                                : length - p->count);
    stretch(r, &c);
    return c;
}

static void begin_life(struct random *r, struct where at, struct life *life)
{
    uint32_t number = random_chance(r, 5) ? 0 : random_between(r, 1, NIL_PIPES);

    memset(life, 0x55, sizeof *life);
    try_fresh(r, at, &life->pipes);
    expect(both_fresh_pipes(at, number, &life->pipes) == 0, at,
           "no fresh pipes");
    for (uint32_t k = 0; k < NIL_PIPES; k++) {
        life->length[k] = some_buffer_length(r);
        life->in[k] = 0;
        life->out[k] = 0;
        fill(r, &buffers[k], LITTLE);
    }
    fill(r, &other, LITTLE);
}

/* Returns how many calls there were. */
static uint64_t run_life(uint64_t seed, uint64_t wanted)
{
    struct random random = { seed };
    struct where at = { seed, 0 };
    struct life life;

    begin_life(&random, at, &life);
    while (at.number < LIFE && at.number < wanted) {
        struct pipe_call c = some_call(&random, &life);
        struct transfer done;

        at.number++;
        if (c.kind == PIPE_WRITE) {
            offer(seed, &life, &c);
        }
        done = both_pipe(at, &c, &life.pipes, &buffers[c.pipe % NIL_PIPES],
                         &other);
        follow(at, &life, &c, done);
        note(at, PIPE_LIVES, done);
    }
    return at.number;
}

uint64_t run_pipes(uint64_t seed, uint64_t wanted)
{
    for (uint64_t done = 0; done < wanted; seed++) {
        done += run_life(seed, wanted - done);
    }
    return seed;
}

/* ---- pipes from outside ----------------------------------------------- */

static uint16_t some_reset(struct random *r)
{
    return random_chance(r, 80) ? 0
         : random_chance(r, 40) ? 1
         : random_chance(r, 40) ? (uint16_t)(random_below(r, 256) * 256)
         : (uint16_t)random_below(r, 65536);
}

static nil_pipe fitting(struct random *r, uint32_t length)
{
    uint32_t read = random_below(r, length);
    uint32_t count = random_chance(r, 10) ? 0
                   : random_chance(r, 10) ? length
                   : random_below(r, length + 1);

    return (nil_pipe){ (uint16_t)read, (uint16_t)((read + count) % length),
                       (uint16_t)count, some_reset(r) };
}

/* A near miss, mostly; of the number of pipes too. */
static void spoil_one(struct random *r, nil_pipes *pipes, nil_pipe *p,
                      uint32_t length)
{
    uint16_t *const fields[] = { &p->read, &p->write, &p->count, &p->read,
                                 &p->write, &p->count, &pipes->number };
    uint16_t *field = fields[random_below(r, 7)];
    uint32_t value = *field;

    switch (random_below(r, 6)) {
    case 0:
        value++;
        break;
    case 1:
        value--;
        break;
    case 2:
        value = length;
        break;
    case 3:
        value += random_chance(r, 50) ? length : 256;
        break;
    case 4:
        value ^= UINT32_C(1) << random_below(r, 16);
        break;
    default:
        value = random_chance(r, 50) ? random_below(r, length + 2)
                                     : random_below(r, 65536);
        break;
    }
    *field = (uint16_t)value;
}

/* Pipes of random bytes keep a number that there may be in half of the cases:
   else a call would nearly always find none. */
static void make_pipes(struct random *r, uint32_t way, uint32_t length,
                       nil_pipes *pipes)
{
    uint32_t limit = way == PIPE_SMALL ? length + 1 : 65536;

    for (uint32_t k = 0; k < NIL_PIPES; k++) {
        nil_pipe *p = &pipes->pipes[k];

        *p = fitting(r, length);
        if (way == PIPE_SMALL || way == PIPE_BYTES) {
            p->read = (uint16_t)random_below(r, limit);
            p->write = (uint16_t)random_below(r, limit);
            p->count = (uint16_t)random_below(r, limit);
        }
    }
    pipes->number = (uint16_t)random_between(r, 1, NIL_PIPES);
    if (way == PIPE_BYTES && random_chance(r, 50)) {
        pipes->number = (uint16_t)random_below(r, 65536);
    } else if (random_chance(r, 3)) {
        pipes->number = (uint16_t)random_below(r, 8);
    }
}

static size_t another_length(struct random *r, uint32_t length)
{
    return random_chance(r, 30) ? length + 1
         : random_chance(r, 30) ? length - 1
         : random_chance(r, 20) ? some_bad_length(r, length)
         : random_between(r, 1, NIL_PIPE_BYTES);
}

static void call_odd(struct random *r, struct where at)
{
    static struct area buffer;
    uint32_t way = random_between(r, PIPE_FITS, PIPE_WAYS - 1);
    uint32_t length = some_buffer_length(r);
    struct pipe_call c = { random_below(r, PIPE_KINDS), 0, length, 0 };
    nil_pipes pipes;
    struct transfer done;

    make_pipes(r, way, length, &pipes);
    c.pipe = some_pipe(r, pipes.number);
    c.asked = some_asked(r, length);
    if (way == PIPE_ONE_FIELD) {
        spoil_one(r, &pipes, &pipes.pipes[c.pipe % NIL_PIPES], length);
    } else if (way == PIPE_LENGTH) {
        c.length = another_length(r, length);
    }
    stretch(r, &c);
    fill(r, &buffer, c.length < LITTLE ? c.length : LITTLE);
    fill(r, &other, c.asked < LITTLE ? c.asked : LITTLE);
    done = both_pipe(at, &c, &pipes, &buffer, &other);
    note(at, way, done);
}

uint64_t run_odd_pipes(uint64_t seed, uint64_t wanted)
{
    for (uint64_t done = 0; done < wanted; seed++) {
        struct random random = { seed };
        struct where at = { seed, 0 };

        while (at.number < ODD && done < wanted) {
            at.number++;
            done++;
            call_odd(&random, at);
        }
    }
    return seed;
}

/* ---- what was met ----------------------------------------------------- */

/* Only a transfer wraps, moves nothing, or meets the reset state. */
void expect_pipes_met(struct where at)
{
    for (uint32_t kind = 0; kind < PIPE_KINDS; kind++) {
        for (uint32_t k = 0; k < PIPE_OUTCOMES; k++) {
            bool transfers = k == PIPE_WRAPPED || k == PIPE_NOTHING
                || k == PIPE_IN_RESET;

            expect(pipe_calls[kind][k] > 0
                   || (transfers && kind >= PIPE_RESET), at,
                   "a pipe call never came to something that it can come to");
        }
    }
    for (uint32_t way = 0; way < PIPE_WAYS; way++) {
        expect((pipe_codes[way][0] > 0 || way == PIPE_BYTES)
               && pipe_codes[way][NIL_BAD_OBJECT] > 0
               && (pipe_codes[way][NIL_BAD_VALUE] > 0 || way <= PIPE_FITS),
               at, "a kind of pipe was always refused, or never");
    }
    expect(pipe_fresh_codes[0] > 0 && pipe_fresh_codes[NIL_BAD_SIZE] > 0, at,
           "fresh pipes were always refused, or never");
}
