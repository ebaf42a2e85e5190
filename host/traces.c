/* The archive's reader and writer beside the second program's. */
#include "traces.h"

#include <string.h>

enum { PLACES = 8, MARGIN = 0xee };

/* What stands behind a record in the buffer is not written. */
static void expect_written(struct where at, const struct course *c,
                           uint8_t code, size_t next)
{
    expect(code == 0 && next == c->second.offset, at, "the writer refused");
    expect(memcmp(c->copy->at, c->trace->at, next) == 0, at,
           "the writer wrote other bytes");
    expect(c->copy->at[next] == MARGIN, at,
           "the writer wrote beyond its record");
}

/* A refusal, or the end: no record, and the same place. */
static void expect_unmoved(struct where at, const nil_read_result *r, int code,
                           size_t place)
{
    static const nil_request no_step = { 0 };
    static const nil_sizes no_sizes = { 0 };

    expect(r->code == (uint32_t)(code == TRACE_END ? 0 : code), at,
           "the reader's codes differ");
    expect(r->found == NIL_FOUND_NOTHING && r->next == place, at,
           "a refused read moved");
    expect(memcmp(&r->step, &no_step, sizeof no_step) == 0
           && memcmp(&r->sizes, &no_sizes, sizeof no_sizes) == 0, at,
           "a refused read gave a record");
}

static void expect_step(struct where at, const nil_read_result *r,
                        const struct reader *second, const struct step *s)
{
    nil_request request = nil_request_of(s);

    expect(r->code == 0 && r->found == NIL_FOUND_STEP
           && r->next == second->offset
           && memcmp(&r->step, &request, sizeof request) == 0, at,
           "the steps read differ");
}

int both_open(struct where at, struct course *c, struct sizes *z)
{
    size_t next = 0;
    nil_read_result r;
    nil_sizes sizes;
    uint8_t written;
    int code = trace_open(&c->second, c->trace->at, c->trace->length, z);

    nil_read(c->trace->at, c->trace->length, 0, &r);
    expect(r.number == 0, at, "record 0 has another number");
    if (code != 0) {
        expect_unmoved(at, &r, code, 0);
        return code;
    }
    sizes = nil_sizes_of(z);
    expect(r.code == 0 && r.found == NIL_FOUND_SIZES
           && r.next == c->second.offset
           && memcmp(&r.sizes, &sizes, sizeof sizes) == 0, at,
           "the sizes read differ");
    c->at = r.next;
    memset(c->copy->at, MARGIN, sizeof c->copy->at);
    written = nil_write_sizes(c->copy->at, TRACE_LIMIT, &sizes, &next);
    expect_written(at, c, written, next);
    return 0;
}

int both_next(struct where at, struct course *c, struct step *s)
{
    size_t next = 0;
    nil_read_result r;
    uint8_t written;
    uint32_t number = c->second.record;
    int code = trace_next(&c->second, s);

    nil_read(c->trace->at, c->trace->length, c->at, &r);
    expect(r.number == number, at, "the records' numbers differ");
    if (code != 0) {
        expect_unmoved(at, &r, code, c->at);
        return code;
    }
    expect_step(at, &r, &c->second, s);
    written = nil_write_step(c->copy->at, TRACE_LIMIT, c->at, &r.step, &next);
    expect_written(at, c, written, next);
    c->at = r.next;
    return 0;
}

void try_places(struct random *r, struct where at, const struct bytes *trace)
{
    for (uint32_t k = 0; k < PLACES && trace->length > 0; k++) {
        size_t place = random_between(r, 1, (uint32_t)trace->length);
        struct reader second = { trace->at, trace->length, place, 0 };
        struct step s;
        nil_read_result found;
        int code = trace_next(&second, &s);

        nil_read(trace->at, trace->length, place, &found);
        if (code == 0) {
            expect_step(at, &found, &second, &s);
        } else {
            expect_unmoved(at, &found, code, place);
        }
    }
}

/* What the paper has the writer refuse with, in its order. */
static uint8_t refusal_of_space(size_t place, size_t length, size_t space)
{
    return place + length > TRACE_LIMIT ? TOO_LONG
         : place + length > space ? NO_SPACE : ACCEPTED;
}

static void expect_buffer(struct where at, uint8_t code, uint8_t expected,
                          const struct bytes *b, size_t next)
{
    expect(code == expected, at, "the writer's codes differ");
    for (size_t k = 0; code != 0 && k < b->length; k++) {
        expect(b->at[k] == MARGIN, at, "a refused write wrote");
    }
    expect(code == 0 || next == MARGIN, at, "a refused write moved");
}

void try_buffers(struct random *r, struct where at, const struct sizes *z)
{
    static struct bytes b;
    static const uint32_t ends[] = { 40, 40, TRACE_LIMIT, TRACE_SPACE };
    uint32_t end = ends[random_below(r, 4)];
    nil_sizes sizes = nil_sizes_of(z);
    nil_request tick = { NIL_TICK, NIL_INTERRUPT, 0, 0, 0, 0 };
    size_t head = 1 + LENGTH_BYTES + SIZES_BYTES + z->mailboxes;
    size_t place = end - random_below(r, 40);
    size_t next = MARGIN;
    uint8_t code;

    b.length = random_below(r, end + 1);
    memset(b.at, MARGIN, sizeof b.at);
    code = nil_write_step(b.at, b.length, place, &tick, &next);
    expect_buffer(at, code, refusal_of_space(place, LENGTH_BYTES + STEP_BYTES,
                                             b.length), &b, next);
    next = MARGIN;
    b.length = random_below(r, 20);
    memset(b.at, MARGIN, sizeof b.at);
    code = nil_write_sizes(b.at, b.length, &sizes, &next);
    expect_buffer(at, code, sizes_in_limits(z)
                  ? refusal_of_space(0, head, b.length) : BAD_SIZE, &b, next);
}
