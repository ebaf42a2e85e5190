/* Trace reader and writer. */
#include "trace.h"

static uint32_t big_endian(const uint8_t *bytes, size_t width)
{
    uint32_t value = 0;

    for (size_t k = 0; k < width; k++) {
        value = value << 8 | bytes[k];
    }
    return value;
}

static uint8_t *put_big_endian(uint8_t *at, uint32_t value, size_t width)
{
    for (size_t k = width; k > 0; k--) {
        at[k - 1] = (uint8_t)(value & 0xff);
        value >>= 8;
    }
    return at + width;
}

/* ---- reading ---------------------------------------------------------- */

/* "12 the input ends inside a length or body": judged before the length is
   compared with anything, so a wrong length that also runs out is 12. */
static int find_body(const struct reader *r, const uint8_t **body,
                     size_t *length)
{
    size_t left = r->length - r->offset;

    if (left < LENGTH_BYTES) {
        return CUT_SHORT;
    }
    *length = big_endian(r->bytes + r->offset, LENGTH_BYTES);
    *body = r->bytes + r->offset + LENGTH_BYTES;
    return *length > left - LENGTH_BYTES ? CUT_SHORT : ACCEPTED;
}

static void pass_record(struct reader *r, size_t body_length)
{
    r->offset += LENGTH_BYTES + body_length;
    r->record++;
}

/* The M byte may be beyond the limit here, and then so is the number of slot
   bytes: only as many are kept as the sizes have room for, 14 follows. */
static struct sizes decode_sizes(const uint8_t *body)
{
    struct sizes z = { body[0], body[1], body[2], body[3],
                       body[4], body[5], { 0 } };

    for (uint32_t m = 0; m < z.mailboxes && m < MAX_MAILBOXES; m++) {
        z.slots[m] = body[SIZES_BYTES + m];
    }
    return z;
}

/* "Record 0's right length is 6 plus its M byte; below 6 is wrong." */
static int read_sizes(struct reader *r, struct sizes *sizes)
{
    const uint8_t *body = NULL;
    size_t length = 0;
    int code = find_body(r, &body, &length);
    struct sizes found;

    if (code != ACCEPTED) {
        return code;
    }
    if (length < SIZES_BYTES || length != SIZES_BYTES + (size_t)body[4]) {
        return BAD_LENGTH;
    }
    found = decode_sizes(body);
    if (!sizes_in_limits(&found)) {
        return BAD_SIZE;
    }
    *sizes = found;
    pass_record(r, length);
    return ACCEPTED;
}

int trace_open(struct reader *r, const uint8_t *bytes, size_t length,
               struct sizes *sizes)
{
    *r = (struct reader){ bytes, length, 0, 0 };
    if (length > TRACE_LIMIT) {
        return TOO_LONG;
    }
    if (length == 0 || bytes[0] != TRACE_VERSION) {
        return BAD_VERSION;
    }
    r->offset = 1;
    return read_sizes(r, sizes);
}

/* "Kind, caller, object (a byte each), a, timeout (four each, big-endian)."
   The step is not judged here: any values decode. */
static struct step decode_step(const uint8_t *body)
{
    return (struct step){ body[0], body[1], body[2],
                          big_endian(body + 3, 4), big_endian(body + 7, 4) };
}

int trace_next(struct reader *r, struct step *step)
{
    const uint8_t *body = NULL;
    size_t length = 0;
    int code;

    if (r->offset == r->length) {
        return TRACE_END;
    }
    code = find_body(r, &body, &length);
    if (code != ACCEPTED) {
        return code;
    }
    if (length != STEP_BYTES) {
        return BAD_LENGTH;
    }
    *step = decode_step(body);
    pass_record(r, length);
    return ACCEPTED;
}

/* ---- writing ---------------------------------------------------------- */

static uint8_t *put_sizes(uint8_t *at, const struct sizes *z)
{
    *at++ = TRACE_VERSION;
    at = put_big_endian(at, SIZES_BYTES + z->mailboxes, LENGTH_BYTES);
    *at++ = (uint8_t)z->threads;
    *at++ = (uint8_t)z->semaphores;
    *at++ = (uint8_t)z->queues;
    *at++ = (uint8_t)z->references;
    *at++ = (uint8_t)z->mailboxes;
    *at++ = (uint8_t)z->pools;
    for (uint32_t m = 0; m < z->mailboxes; m++) {
        *at++ = (uint8_t)z->slots[m];
    }
    return at;
}

static uint8_t *put_step(uint8_t *at, const struct step *s)
{
    at = put_big_endian(at, STEP_BYTES, LENGTH_BYTES);
    *at++ = s->kind;
    *at++ = s->caller;
    *at++ = s->object;
    at = put_big_endian(at, s->a, 4);
    return put_big_endian(at, s->timeout, 4);
}

/* "The writer refuses, writing nothing, with 14 for such a size, 15 above
   60,000 bytes, 16 if its buffer is too short, in that order." */
int trace_write(const struct sizes *sizes, const struct step *steps,
                size_t count, uint8_t *buffer, size_t space, size_t *length)
{
    const size_t record = LENGTH_BYTES + STEP_BYTES;
    size_t head;
    uint8_t *at = buffer;

    if (!sizes_in_limits(sizes)) {
        return BAD_SIZE;
    }
    head = 1 + LENGTH_BYTES + SIZES_BYTES + sizes->mailboxes;
    if (count > (TRACE_LIMIT - head) / record) {
        return TOO_LONG;
    }
    if (head + count * record > space) {
        return NO_SPACE;
    }
    at = put_sizes(at, sizes);
    for (size_t k = 0; k < count; k++) {
        at = put_step(at, &steps[k]);
    }
    *length = (size_t)(at - buffer);
    return ACCEPTED;
}
