/* Hand-worked cases: traces read and written. */
#include "check.h"
#include "trace.h"

static const struct step SIX[] = {
    { 2, 0, 0, 0, 3 }, { 3, 1, 0, 0, 0 }, { 2, 0, 0, 0, 2 },
    { 1, 255, 0, 0, 0 }, { 1, 255, 0, 0, 0 }, { 3, 1, 0, 0, 0 }
};

static int open_code(const uint8_t *bytes, size_t length)
{
    struct reader r;
    struct sizes z;
    int code = trace_open(&r, bytes, length, &z);

    VERIFY(code == ACCEPTED || r.record == 0);
    return code;
}

static void check_trace_opening(void)
{
    static uint8_t big[60001] = { 1, 0, 6, 1 };
    static const uint8_t good[] = { 1, 0, 7, 16, 16, 8, 8, 1, 4, 16 };
    static const uint8_t nothing[] = { 1, 0, 0 };
    static const uint8_t few[] = { 1, 0, 5, 1, 0, 0, 0, 0 };
    static const uint8_t less[] = { 1, 0, 6, 1, 0, 0, 0, 1, 0 };
    static const uint8_t none[] = { 1, 0, 6, 0, 0, 0, 0, 0, 0 };
    static const uint8_t slot[] = { 1, 0, 7, 1, 0, 0, 0, 1, 0, 17 };
    static const uint8_t five[] = { 1, 0, 11, 1, 0, 0, 0, 5, 0,
                                    1, 1, 1, 1, 1 };

    about("opening a trace");
    VERIFY(open_code(big, 60001) == 15 && open_code(big, 60000) == 0);
    big[0] = 2;
    VERIFY(open_code(big, 60001) == 15 && open_code(big, 60000) == 11);
    VERIFY(open_code(good, 0) == 11 && open_code(good, 1) == 12);
    VERIFY(open_code(good, 2) == 12 && open_code(good, 9) == 12);
    VERIFY(open_code(good, sizeof good) == 0);
    VERIFY(open_code(nothing, sizeof nothing) == 13);
    VERIFY(open_code(few, sizeof few) == 13 && open_code(few, 7) == 12);
    VERIFY(open_code(less, sizeof less) == 13);
    VERIFY(open_code(none, sizeof none) == 14);
    VERIFY(open_code(slot, sizeof slot) == 14);
    VERIFY(open_code(five, sizeof five) == 14);
}

static bool same_step(const struct step *x, const struct step *y)
{
    return x->kind == y->kind && x->caller == y->caller
        && x->object == y->object && x->a == y->a
        && x->timeout == y->timeout;
}

static void check_trace_reading(void)
{
    struct sizes z = { 2, 1, 0, 0, 0, 0, { 0 } };
    uint8_t bytes[9 + 6 * 13];
    struct reader r;
    struct step s = { 0 };
    size_t length = 0;

    about("reading a trace");
    VERIFY(trace_write(&z, SIX, 6, bytes, sizeof bytes, &length) == 0);
    VERIFY(length == sizeof bytes);
    VERIFY(trace_open(&r, bytes, length, &z) == 0 && r.record == 1);
    for (uint32_t k = 0; k < 6; k++) {
        VERIFY(trace_next(&r, &s) == 0 && same_step(&s, &SIX[k]));
    }
    VERIFY(trace_next(&r, &s) == TRACE_END && r.record == 7);
    VERIFY(trace_open(&r, bytes, 9 + 13 + 1, &z) == 0);
    VERIFY(trace_next(&r, &s) == 0 && trace_next(&r, &s) == 12);
    VERIFY(trace_next(&r, &s) == 12 && r.record == 2 && r.offset == 22);
    bytes[9 + 1] = 10;
    VERIFY(trace_open(&r, bytes, length, &z) == 0);
    VERIFY(trace_next(&r, &s) == 13 && trace_next(&r, &s) == 13);
    bytes[9] = 255;
    VERIFY(trace_next(&r, &s) == 12 && r.record == 1);
}

static void check_trace_writing(void)
{
    static struct step many[4615];
    static uint8_t buffer[60000];
    struct sizes z = { 1, 0, 0, 0, 0, 0, { 0 } };
    size_t length = 7;

    about("writing a trace");
    many[4613] = (struct step){ 255, 254, 253, UINT32_C(0x01020304),
                                UINT32_MAX };
    VERIFY(trace_write(&z, many, 4615, buffer, 0, &length) == 15);
    VERIFY(trace_write(&z, many, 4614, buffer, 59990, &length) == 16);
    VERIFY(length == 7 && buffer[0] == 0);
    VERIFY(trace_write(&z, many, 4614, buffer, 59991, &length) == 0);
    VERIFY(length == 59991 && buffer[59978] == 0 && buffer[59979] == 11);
    VERIFY(buffer[59980] == 255 && buffer[59983] == 1 && buffer[59986] == 4);
    z.threads = 0;
    VERIFY(trace_write(&z, many, 4615, buffer, 0, &length) == 14);
}

void check_traces(void)
{
    check_trace_opening();
    check_trace_reading();
    check_trace_writing();
}
