/* Hand-worked cases: byte pipes, from document 02 (4/13). */
#include "check.h"

#include "pipes.h"

#include <string.h>

enum { SPACE = 300 };

/* What the case at work has; its calls go to pipe 0 where none is named. Dots
   stand in the buffer where nothing was written, dashes in the target. */
static struct pipes all;
static uint8_t buffer[SPACE];
static uint8_t target[SPACE];

static void begin(const char *name, uint32_t number)
{
    about(name);
    memset(buffer, '.', sizeof buffer);
    memset(target, '-', sizeof target);
    VERIFY(fresh_pipes(&all, number) == 0);
}

static struct transfer put_in(uint32_t which, size_t length, const char *text)
{
    return write_pipe(&all, which, buffer, length, (const uint8_t *)text,
                      strlen(text));
}

static bool put(size_t length, const char *text, int32_t moved)
{
    struct transfer done = put_in(0, length, text);

    return done.code == 0 && done.moved == moved;
}

static bool all_are(const uint8_t *at, size_t from, uint8_t byte)
{
    for (size_t k = from; k < SPACE; k++) {
        if (at[k] != byte) {
            return false;
        }
    }
    return true;
}

/* A read of so many bytes gives the text, and nothing behind it. */
static bool took(size_t length, size_t wanted, const char *text)
{
    size_t moved = strlen(text);
    struct transfer done;

    memset(target, '-', sizeof target);
    done = read_pipe(&all, 0, buffer, length, target, wanted);
    return done.code == 0 && done.moved == (int32_t)moved
        && memcmp(target, text, moved) == 0 && all_are(target, moved, '-');
}

static bool pipe_is(uint32_t read, uint32_t write, uint32_t count,
                    uint32_t reset)
{
    const struct pipe *p = &all.pipe[0];

    return p->read == read && p->write == write && p->count == count
        && p->reset == reset;
}

static bool buffer_is(const char *text)
{
    return memcmp(buffer, text, strlen(text)) == 0
        && all_are(buffer, strlen(text), '.');
}

/* All four calls are refused with the code, and no byte changes. */
static bool refused(uint32_t which, size_t length, uint32_t code)
{
    struct pipes before = all;
    uint8_t bytes[SPACE];
    struct transfer w, r;

    memcpy(bytes, buffer, sizeof bytes);
    memset(target, '-', sizeof target);
    w = put_in(which, length, "new");
    r = read_pipe(&all, which, buffer, length, target, 3);
    return w.code == code && w.moved == 0 && r.code == code && r.moved == 0
        && reset_pipe(&all, which, length) == code
        && resume_pipe(&all, which, length) == code
        && memcmp(&before, &all, sizeof all) == 0
        && memcmp(bytes, buffer, sizeof bytes) == 0
        && all_are(target, 0, '-');
}

static void check_past_the_end(void)
{
    begin("a transfer goes on at the buffer's start", 1);
    VERIFY(put(5, "abc", 3) && pipe_is(0, 3, 3, 0) && buffer_is("abc"));
    VERIFY(took(5, 2, "ab") && pipe_is(2, 3, 1, 0));
    /* four places are free: 3, 4, 0 and 1 */
    VERIFY(put(5, "defgh", 4) && pipe_is(2, 2, 5, 0) && buffer_is("fgcde"));
    VERIFY(put(5, "x", 0) && pipe_is(2, 2, 5, 0) && buffer_is("fgcde"));
    VERIFY(took(5, 9, "cdefg") && pipe_is(2, 2, 0, 0) && buffer_is("fgcde"));
    VERIFY(took(5, 9, "") && pipe_is(2, 2, 0, 0));
}

/* A run that ends with the buffer leaves its place at 0, not at the length. */
static void check_up_to_the_end(void)
{
    begin("a transfer ends where the buffer does", 1);
    VERIFY(put(4, "abcd", 4) && pipe_is(0, 0, 4, 0));
    VERIFY(took(4, 4, "abcd") && pipe_is(0, 0, 0, 0));
    VERIFY(put(4, "xy", 2) && took(4, 2, "xy") && pipe_is(2, 2, 0, 0));
    VERIFY(put(4, "pq", 2) && pipe_is(2, 0, 2, 0) && buffer_is("xypq"));
    VERIFY(took(4, 1, "p") && pipe_is(3, 0, 1, 0));
    VERIFY(took(4, 1, "q") && pipe_is(0, 0, 0, 0));
}

static void check_nothing_asked(void)
{
    begin("nothing offered, no room in the target", 1);
    VERIFY(put(3, "", 0) && pipe_is(0, 0, 0, 0) && buffer_is(""));
    VERIFY(took(3, 0, "") && pipe_is(0, 0, 0, 0));
    VERIFY(put(3, "ab", 2) && put(3, "", 0) && took(3, 0, ""));
    VERIFY(pipe_is(0, 2, 2, 0) && buffer_is("ab"));
}

/* Both places are 0 whether it is full or empty: the count tells. */
static void check_one_byte(void)
{
    begin("a buffer of one byte", 1);
    VERIFY(put(1, "ab", 1) && pipe_is(0, 0, 1, 0) && buffer_is("a"));
    VERIFY(put(1, "c", 0) && buffer_is("a"));
    VERIFY(took(1, 2, "a") && pipe_is(0, 0, 0, 0));
    VERIFY(put(1, "d", 1) && took(1, 1, "d") && took(1, 1, ""));
}

static void check_most_bytes(void)
{
    uint8_t offered[SPACE];
    struct transfer done;

    begin("a buffer of 256 bytes", 1);
    for (uint32_t k = 0; k < SPACE; k++) {
        offered[k] = (uint8_t)(k % 251);
    }
    done = write_pipe(&all, 0, buffer, 256, offered, SPACE);
    VERIFY(done.code == 0 && done.moved == 256 && pipe_is(0, 0, 256, 0));
    VERIFY(memcmp(buffer, offered, 256) == 0 && all_are(buffer, 256, '.'));
    done = read_pipe(&all, 0, buffer, 256, target, 255);
    VERIFY(done.code == 0 && done.moved == 255 && pipe_is(255, 0, 1, 0));
    VERIFY(memcmp(target, offered, 255) == 0 && all_are(target, 255, '-'));
    VERIFY(put(256, "AB", 2) && pipe_is(255, 2, 3, 0));
    VERIFY(took(256, 256, "\004AB") && pipe_is(2, 2, 0, 0));
}

static void check_reset(void)
{
    begin("reset and resume", 1);
    VERIFY(put(4, "abc", 3) && took(4, 1, "a") && pipe_is(1, 3, 2, 0));
    VERIFY(reset_pipe(&all, 0, 4) == 0 && pipe_is(0, 0, 0, 1));
    VERIFY(put(4, "xy", -2) && put(4, "", -2) && buffer_is("abc"));
    VERIFY(read_pipe(&all, 0, buffer, 4, target, 4).moved == -2);
    VERIFY(read_pipe(&all, 0, buffer, 4, target, 0).code == 0);
    VERIFY(pipe_is(0, 0, 0, 1) && target[1] == '-');
    VERIFY(reset_pipe(&all, 0, 4) == 0 && pipe_is(0, 0, 0, 1));
    VERIFY(resume_pipe(&all, 0, 4) == 0 && pipe_is(0, 0, 0, 0));
    VERIFY(took(4, 4, "") && put(4, "xy", 2) && buffer_is("xyc"));
    VERIFY(resume_pipe(&all, 0, 4) == 0 && pipe_is(0, 2, 2, 0));
    VERIFY(took(4, 4, "xy"));
}

/* Pipes from outside: any value but 0 is the reset state, and there may be
   bytes in it, which resume leaves. */
static void check_odd_reset(void)
{
    begin("a reset state that no reset left", 1);
    VERIFY(put(4, "abcd", 4) && took(4, 3, "abc") && put(4, "ef", 2));
    all.pipe[0].reset = 65535;
    VERIFY(put(4, "x", -2) && pipe_is(3, 2, 3, 65535) && buffer_is("efcd"));
    VERIFY(read_pipe(&all, 0, buffer, 4, target, 1).moved == -2);
    VERIFY(resume_pipe(&all, 0, 4) == 0 && pipe_is(3, 2, 3, 0));
    VERIFY(took(4, 4, "def"));
    all.pipe[0].reset = 256;
    VERIFY(put(4, "x", -2) && pipe_is(2, 2, 0, 256));
    VERIFY(reset_pipe(&all, 0, 4) == 0 && pipe_is(0, 0, 0, 1));
}

static void check_no_pipe(void)
{
    begin("a pipe that isn't there", 0);
    VERIFY(refused(0, 4, 5) && refused(UINT32_MAX, 4, 5));
    for (uint32_t number = 1; number <= MAX_PIPES; number++) {
        begin("a pipe that isn't there", number);
        VERIFY(put_in(number - 1, 4, "a").moved == 1);
        VERIFY(refused(number, 4, 5) && refused(65536, 4, 5));
    }
    /* a table with more pipes than there may be has none */
    all.number = 5;
    VERIFY(refused(0, 4, 5) && refused(3, 4, 5) && refused(4, 4, 5));
    all.number = 65535;
    VERIFY(refused(0, 4, 5) && refused(4, 4, 5));
}

static void check_lengths(void)
{
    begin("a buffer length outside 1 to 256", 1);
    VERIFY(refused(0, 0, 5) && refused(0, 257, 5));
    VERIFY(refused(0, 260, 5) && refused(0, 65540, 5));
    VERIFY(refused(0, SIZE_MAX, 5));
    VERIFY(put(256, "a", 1) && took(256, 1, "a"));
}

/* A record fits a length, and others it does not. */
static bool record_fits(uint32_t read, uint32_t write, uint32_t count,
                        size_t length)
{
    all.pipe[0] = (struct pipe){ read, write, count, 0 };
    return read_pipe(&all, 0, buffer, length, target, 0).code == 0;
}

static void check_records(void)
{
    begin("places and count that do not fit the buffer", 1);
    VERIFY(record_fits(3, 3, 4, 4) && record_fits(3, 3, 0, 4));
    VERIFY(record_fits(3, 2, 3, 4) && record_fits(2, 1, 3, 4));
    VERIFY(!record_fits(4, 0, 0, 4) && refused(0, 4, 6));
    VERIFY(!record_fits(0, 4, 4, 4) && refused(0, 4, 6));
    VERIFY(!record_fits(0, 1, 5, 4) && refused(0, 4, 6));
    VERIFY(!record_fits(0, 0, 8, 4) && refused(0, 4, 6));
    VERIFY(!record_fits(1, 3, 1, 4) && refused(0, 4, 6));
    VERIFY(!record_fits(1, 1, 1, 4) && refused(0, 4, 6));
    VERIFY(!record_fits(2, 1, 3, 5) && refused(0, 5, 6));
    VERIFY(!record_fits(0, 0, 1, 4) && refused(0, 4, 6));
    VERIFY(record_fits(0, 0, 1, 1) && !record_fits(1, 1, 0, 1));
    VERIFY(record_fits(255, 254, 255, 256) && !record_fits(256, 0, 0, 256));
    VERIFY(!record_fits(65535, 0, 1, 256) && refused(0, 256, 6));
    VERIFY(!record_fits(UINT32_MAX, 3, 4, 4) && refused(0, 4, 6));
}

/* Each has what the later ones refuse as well. */
static void check_order(void)
{
    begin("refusals in their order", 1);
    all.pipe[0] = (struct pipe){ 9, 9, 9, 1 };
    all.pipe[1] = all.pipe[0];
    VERIFY(refused(1, 0, 5) && refused(1, 4, 5));
    VERIFY(refused(0, 0, 5) && refused(0, 300, 5));
    VERIFY(refused(0, 4, 6));
    all.pipe[0] = (struct pipe){ 1, 1, 0, 1 };
    VERIFY(put(4, "a", -2));
}

static void check_fresh_pipes(void)
{
    static const struct pipe empty;
    struct pipes before;

    for (uint32_t number = 0; number <= MAX_PIPES; number++) {
        memset(&all, 0x55, sizeof all);
        begin("fresh pipes", number);
        VERIFY(all.number == number);
        for (uint32_t k = 0; k < MAX_PIPES; k++) {
            VERIFY(memcmp(&all.pipe[k], &empty, sizeof empty) == 0);
        }
    }
    before = all;
    VERIFY(fresh_pipes(&all, 5) == 14);
    VERIFY(fresh_pipes(&all, 65536) == 14);
    VERIFY(fresh_pipes(&all, UINT32_MAX) == 14);
    VERIFY(memcmp(&before, &all, sizeof all) == 0);
}

static void check_side_by_side(void)
{
    struct pipes before;

    begin("pipes do not know of each other", 4);
    VERIFY(put(8, "abcdef", 6));
    before = all;
    VERIFY(put_in(2, 3, "xyz").moved == 3);
    VERIFY(reset_pipe(&all, 3, 1) == 0);
    VERIFY(memcmp(all.pipe, before.pipe, 2 * sizeof all.pipe[0]) == 0);
    VERIFY(all.pipe[2].count == 3 && all.pipe[3].reset == 1);
    VERIFY(put_in(3, 1, "a").moved == -2 && put_in(1, 1, "a").moved == 1);
    VERIFY(resume_pipe(&all, 3, 1) == 0 && put_in(3, 1, "a").moved == 1);
}

void check_pipes(void)
{
    check_past_the_end();
    check_up_to_the_end();
    check_nothing_asked();
    check_one_byte();
    check_most_bytes();
    check_reset();
    check_odd_reset();
    check_no_pipe();
    check_lengths();
    check_records();
    check_order();
    check_fresh_pipes();
    check_side_by_side();
}
