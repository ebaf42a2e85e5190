/*
 * The comparison of pairs: differing [COUNT [SEED]]. Drives the archive beside
 * the second program with COUNT pairs of tables: it compares them, applies the
 * list and an odd one, saves and loads them. It stops at the first answer or
 * byte that differs.
 *
 * Seeds count up from SEED, one for each plant that lives and is compared with
 * others.
 */
#include "matching.h"
#include "storing.h"

#include <stdio.h>
#include <stdlib.h>

enum { PAIRS = 40, MOST_STEPS = 8, MANY = 2000 };

/* How often each code was answered. */
static uint64_t codes[APART_WAYS][CODES];

/* A plant lives on between its comparisons. Returns how many there were. */
static uint64_t run_plant(uint64_t seed, uint64_t wanted)
{
    static struct two_plants two;
    static struct found found;
    static struct life life;
    struct where at = { seed, 0 };

    begin_life(&life, seed);
    while (at.number < PAIRS && at.number < wanted) {
        uint32_t way = random_below(&life.random, APART_WAYS);

        at.number++;
        live(&life, random_below(&life.random, MOST_STEPS + 1));
        part(&life, way, &two);
        both_compare(at, &two, &found);
        codes[way][found.code]++;
        both_apply_oddly(&life.random, at, &two.second, &found);
        both_store(&life.random, at, &two.second);
    }
    return at.number;
}

static uint64_t run_plants(uint64_t seed, uint64_t wanted)
{
    for (uint64_t done = 0; done < wanted; seed++) {
        done += run_plant(seed, wanted - done);
    }
    return seed;
}

/* ---- report ----------------------------------------------------------- */

static void print_codes(const char *name, const uint64_t *of)
{
    printf("  %-24s", name);
    for (uint32_t k = 0; k < CODES; k++) {
        if (of[k] > 0) {
            printf("  code %u: %llu", (unsigned)k, (unsigned long long)of[k]);
        }
    }
    printf("\n");
}

static void report(void)
{
    for (uint32_t way = 0; way < APART_WAYS; way++) {
        print_codes(apart_name(way), codes[way]);
    }
    print_codes("saves", save_codes);
    print_codes("loads", load_codes);
    printf("  lists: %llu entries, %llu lists empty; %llu slots and list "
           "places used in the second alone, %llu in the first; %llu rooms "
           "too small\n", (unsigned long long)matches.entries,
           (unsigned long long)matches.empty,
           (unsigned long long)matches.came_to_use,
           (unsigned long long)matches.went_from_it,
           (unsigned long long)matches.no_space);
    printf("  odd lists: %llu, %llu entries passed over\n",
           (unsigned long long)matches.odd_lists,
           (unsigned long long)matches.passed_over);
}

/* What does not count makes no difference; nothing but damage is refused with
   1, or a size or one field; nothing but sizes with 5. */
static void expect_met(struct where at)
{
    for (uint32_t way = 0; way < APART_WAYS; way++) {
        bool may_break = way == APART_DAMAGE || way == APART_SIZES
            || way == APART_FIELD;

        expect(codes[way][0] > 0, at, "some pairs were always refused");
        expect(codes[way][NIL_BROKEN_TABLES] == 0 || may_break, at,
               "good tables were refused with 1");
        expect(codes[way][NIL_BAD_OBJECT] == 0 || may_break, at,
               "the same sizes were refused with 5");
    }
    expect(codes[APART_DAMAGE][NIL_BROKEN_TABLES] > 0
           && codes[APART_SIZES][NIL_BAD_OBJECT] > 0 && matches.no_space > 0,
           at, "a refusal never came");
    expect(matches.empty >= codes[APART_NOTHING][0] + codes[APART_UNUSED][0]
           && matches.came_to_use > 0 && matches.went_from_it > 0
           && matches.passed_over > 0, at, "a kind of list never came");
    expect(save_codes[0] > 0 && save_codes[NIL_NO_SPACE] > 0
           && load_codes[0] > 0 && load_codes[NIL_BAD_VALUE] > 0
           && load_codes[NIL_BAD_VERSION] > 0 && load_codes[NIL_CUT_SHORT] > 0
           && load_codes[NIL_BAD_LENGTH] > 0, at,
           "a save or a load never came to something that it can come to");
}

static bool read_number(const char *text, uint64_t *number)
{
    char *end;

    *number = strtoull(text, &end, 10);
    return text[0] >= '0' && text[0] <= '9' && *end == '\0';
}

int main(int argc, char **argv)
{
    uint64_t given[] = { 3000, 1 };
    uint64_t end;

    for (int k = 1; k < argc; k++) {
        if (k > 2 || !read_number(argv[k], &given[k - 1])) {
            fputs("usage: differing [COUNT [SEED]]\n", stderr);
            return 2;
        }
    }
    end = run_plants(given[1], given[0]);
    /* a short run need not meet all */
    if (given[0] >= MANY) {
        expect_met((struct where){ end - 1, 0 });
    }
    printf("differing: %llu pairs, seeds %llu to %llu; all answers, lists and "
           "bytes equal\n", (unsigned long long)given[0],
           (unsigned long long)given[1], (unsigned long long)end - 1);
    report();
    return fflush(stdout) == 0 ? 0 : 1;
}
