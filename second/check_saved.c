/* Hand-worked cases: saved tables, from docs/COMPARE.md. */
#include "check.h"

#include "saved.h"
#include "trace.h"

#include <string.h>

static uint8_t file[SAVED_BYTES + 1];

static uint32_t sum_of(const char *text)
{
    return adler32((const uint8_t *)text, strlen(text));
}

static void check_sums(void)
{
    static uint8_t many[6000];

    about("Adler-32");
    VERIFY(sum_of("") == 1 && sum_of("a") == 0x00620062);
    VERIFY(sum_of("abc") == 0x024d0127);
    VERIFY(sum_of("message digest") == 0x29750586);
    VERIFY(sum_of("Wikipedia") == 0x11e60398);
    memset(many, 255, sizeof many);
    VERIFY(adler32(many, sizeof many) == 0xa49759ea);
}

/* Whether these bytes stand in the file, behind its head. */
static bool stand(size_t at, const char *bytes, size_t length)
{
    return memcmp(file + SAVED_HEAD + at, bytes, length) == 0;
}

static void check_places(void)
{
    START("where the fields stand", 3, 4, 1, 1, 1, 2, 1);
    DO(20, 0, 0, 0, 258, 0, 1, 0, 0, 0, 0);
    DO(15, 1, 1, 0xfffefdfc, 0, 0, 1, 0, 2, 0, 0);
    DO(22, 1, 0, 7, 0, 0, 0, 1, 3, 0, 0);
    t.words.filler = 0x0403;
    t.thread[1].last = (struct answer){ -2, 0x01020304 };
    VERIFY(save_tables(&t, file, SAVED_BYTES) == ACCEPTED);
    VERIFY(memcmp(file, "\3\0\0\0", 4) == 0);
    VERIFY(stand(48 + 32, "\376\377\377\377\4\3\2\1", 8)); /* answer */
    VERIFY(stand(40, "\1\0\0\0\3\0\0\0", 8));              /* cause, step */
    VERIFY(stand(768 + 4 * 16, "\0\0\0\0", 4));            /* counter p0 */
    VERIFY(stand(912, "\377\377\377\377", 4));             /* references */
    VERIFY(stand(920, "\17\0\0\0", 4));                    /* words */
    VERIFY(stand(920 + 74, "\3\4\3\0\0\0", 6));            /* filler, steps */
    VERIFY(stand(1000 + 72, "\0\0\1\0\1\0\0\0\374\375\376\377", 12));
    VERIFY(stand(1288, "\0\0\7", 3)); /* no list, and what stood in it */
    VERIFY(stand(1288 + 34 + 7, "\2", 1));
    VERIFY(stand(1552, "\4\0\1\0\1\0\1\0\2\0\1\0\3\0\3\0\0\0\0\0", 20));
    VERIFY(stand(1572, "\0\0\0\0\20\47\0\0", 8)); /* clock */
}

/* As it lies there: the number of its place, whatever its state is. */
static void check_waits_saved(void)
{
    START("where threads wait", 1, 3, 1, 2, 2, 1, 1);
    DO(6, 0, 1, 0, 5, 0, 1, 0, 0, 0, 0);
    DO(9, 1, 1, 0, 5, 0, 2, 0, 0, 0, 0);
    VERIFY(save_tables(&t, file, SAVED_BYTES) == ACCEPTED);
    VERIFY(stand(0, "\3\0\25\0\5\0\0\0", 8));
    VERIFY(stand(48, "\2\0\1\0\5\0\0\0", 8));
    VERIFY(stand(96, "\0\0\0\0\0\0\0\0", 8));
    VERIFY(stand(768 + 4 * 21, "\377\377\377\377", 4));
    VERIFY(stand(922 + 2 * 21, "\1\0", 2));
}

/* The number of the file's checksum, made right again after a change. */
static void mend(void)
{
    uint32_t sum = adler32(file + SAVED_HEAD, SAVED_BYTES - SAVED_HEAD);

    for (uint32_t k = 0; k < 4; k++) {
        file[4 + k] = (uint8_t)(sum >> 8 * k & 255);
    }
}

/* Any bytes come back, tables or not. */
static void check_round(void)
{
    static uint8_t again[SAVED_BYTES];

    START("saved and loaded", 1, 3, 1, 2, 2, 1, 1);
    save_tables(&t, file, SAVED_BYTES);
    for (size_t k = SAVED_HEAD; k < SAVED_BYTES; k++) {
        file[k] = (uint8_t)(k * k + 7 * k);
    }
    mend();
    VERIFY(load_tables(&t, file, SAVED_BYTES) == ACCEPTED);
    VERIFY(!tables_hang_together(&t));
    VERIFY(save_tables(&t, again, sizeof again) == ACCEPTED);
    VERIFY(memcmp(again, file, sizeof again) == 0);
}

/* Refused, and the tables are left alone. */
static bool refused(size_t length, uint32_t code)
{
    struct tables kept = t;

    return load_tables(&t, file, length) == code
        && memcmp(&kept, &t, sizeof t) == 0;
}

static void check_damaged(void)
{
    START("damaged files", 1, 3, 1, 2, 2, 1, 1);
    save_tables(&t, file, SAVED_BYTES);
    t.steps = 9;
    VERIFY(refused(0, BAD_VERSION) && refused(3, BAD_VERSION));
    VERIFY(refused(4, CUT_SHORT) && refused(SAVED_BYTES - 1, CUT_SHORT));
    VERIFY(refused(SAVED_BYTES + 1, BAD_LENGTH));
    for (size_t at = 4; at < SAVED_BYTES; at += 3) {
        file[at] ^= 16;
        VERIFY(refused(SAVED_BYTES, BAD_VALUE));
        file[at] ^= 16;
    }
    for (size_t at = 0; at < 4; at++) {
        file[at] ^= 1;
        VERIFY(refused(SAVED_BYTES, BAD_VERSION));
        VERIFY(refused(4, BAD_VERSION) && refused(SAVED_BYTES + 1, 11));
        file[at] ^= 1;
    }
    VERIFY(load_tables(&t, file, SAVED_BYTES) == ACCEPTED && t.steps == 0);
}

static void check_no_room(void)
{
    START("no room to save", 1, 1, 0, 0, 0, 0, 0);
    memset(file, 0x33, sizeof file);
    VERIFY(save_tables(&t, file, SAVED_BYTES - 1) == NO_SPACE);
    VERIFY(save_tables(&t, file, 0) == NO_SPACE);
    VERIFY(file[0] == 0x33 && memcmp(file, file + 1, SAVED_BYTES) == 0);
    VERIFY(save_tables(&t, file, sizeof file) == ACCEPTED);
    VERIFY(file[SAVED_BYTES] == 0x33);
}

void check_saved(void)
{
    check_sums();
    check_places();
    check_waits_saved();
    check_round();
    check_damaged();
    check_no_room();
}
