/* An entry is five numbers on both sides: so lists are compared as bytes. */
#include "matching.h"

#include <string.h>

enum {
    NUMBERS = NIL_CHANGE_NUMBERS,
    GUARD = 8,
    ODD_ENTRIES = 24,
    PATTERN = 0x5a
};

struct matches matches;

/* What is lent, and guard numbers around it. */
struct list_area {
    uint32_t before[GUARD];
    uint32_t list[ALL_FIELDS * NUMBERS];
    uint32_t after[GUARD];
};

struct plant_area {
    uint32_t before[GUARD];
    struct plant plant;
    uint32_t after[GUARD];
};

static struct plant_area guarded(const struct plant *plant)
{
    struct plant_area area;

    memset(&area, PATTERN, sizeof area);
    area.plant = *plant;
    return area;
}

/* ---- comparing -------------------------------------------------------- */

/* One call, with room for so many numbers; it is held to the list that was
   found, and writes nothing beyond it. */
static void try_room(struct where at, const struct two_plants *two,
                     size_t room, const struct found *found)
{
    struct plant_area first = guarded(&two->first), old_first = first;
    struct plant_area second = guarded(&two->second), old_second = second;
    struct list_area area, want;
    uint32_t code = found->code;
    size_t entries = 4711, wanted = 4711;
    uint8_t answer;

    memset(&area, PATTERN, sizeof area);
    want = area;
    if (code == 0 && found->entries * NUMBERS > room) {
        code = NIL_NO_SPACE;
        matches.no_space++;
    }
    if (code == 0) {
        memcpy(want.list, found->list,
               found->entries * sizeof(struct change));
        wanted = found->entries;
    }
    answer = nil_compare_bytes(
        &first.plant.tables, sizeof(nil_tables), &first.plant.clock,
        sizeof(nil_clock), &second.plant.tables, sizeof(nil_tables),
        &second.plant.clock, sizeof(nil_clock), area.list, room, &entries);
    expect(answer == code, at, "the codes of a comparison differ");
    expect(entries == wanted, at, "the numbers of entries differ");
    expect(memcmp(&area, &want, sizeof area) == 0, at,
           "the lists differ, or a number outside the list changed");
    expect(memcmp(&first, &old_first, sizeof first) == 0
           && memcmp(&second, &old_second, sizeof second) == 0, at,
           "a comparison changed a byte of the tables");
}

/* As a host calls it. Room beyond all fields need not be there. */
static void try_call(struct where at, const struct two_plants *two,
                     const struct found *found)
{
    nil_change list[NIL_FIELDS];
    size_t entries = 4711;
    uint8_t code = nil_compare(&two->first.tables, &two->first.clock,
                               &two->second.tables, &two->second.clock, list,
                               (size_t)-1, &entries);

    expect(code == found->code, at, "nil_compare has another code");
    expect(entries == (code == 0 ? found->entries : 4711), at,
           "nil_compare has another number of entries");
    expect(code != 0
           || memcmp(list, found->list, entries * sizeof list[0]) == 0, at,
           "nil_compare has another list");
}

/* The whole room, just enough, one number and one entry less, none. */
static void try_rooms(struct where at, const struct two_plants *two,
                      const struct found *found)
{
    size_t enough = found->code == 0 ? found->entries * NUMBERS : 0;

    try_room(at, two, ALL_FIELDS * NUMBERS, found);
    try_room(at, two, enough, found);
    try_room(at, two, 0, found);
    if (enough > 0) {
        try_room(at, two, enough - 1, found);
        try_room(at, two, enough - NUMBERS, found);
    }
    try_call(at, two, found);
}

/* ---- applying --------------------------------------------------------- */

/* By both, to the same plant, which is then as the archive leaves it. Numbers
   behind the last whole entry are none. Returns how many were passed over. */
static size_t both_apply(struct where at, struct plant *plant,
                         const struct change *list, size_t numbers)
{
    struct plant_area area = guarded(plant), want = area;
    struct tables t;
    size_t passed_over, other;

    to_second(&plant->tables, &plant->clock, &t);
    other = apply_changes(&t, list, numbers / NUMBERS);
    from_second(&t, &want.plant.tables, &want.plant.clock);
    passed_over = nil_apply_bytes(&area.plant.tables, sizeof(nil_tables),
                                  &area.plant.clock, sizeof(nil_clock), list,
                                  numbers);
    expect(passed_over == other, at, "other entries were passed over");
    expect(memcmp(&area, &want, sizeof area) == 0, at,
           "applied, a list gives other bytes");
    *plant = area.plant;
    return passed_over;
}

static struct tables seconds_of(const struct plant *plant)
{
    struct tables t;

    to_second(&plant->tables, &plant->clock, &t);
    return t;
}

/* As a host calls it, too. */
static void expect_there(struct where at, const struct two_plants *two,
                         const struct found *found)
{
    struct plant applied = two->first, called = two->first;
    struct tables reached, wanted = seconds_of(&two->second);

    expect(both_apply(at, &applied, found->list, found->entries * NUMBERS)
               == 0,
           at, "an entry of a list names no field");
    reached = seconds_of(&applied);
    expect(same_in_what_counts(&reached, &wanted), at,
           "a list does not lead from the first to the second");
    expect(nil_broken(&applied.tables, &applied.clock) == 0, at,
           "a list leads to tables that do not hang together");
    expect(nil_apply(&called.tables, &called.clock,
                     (const nil_change *)(const void *)found->list,
                     found->entries) == 0
           && memcmp(&called, &applied, sizeof called) == 0, at,
           "nil_apply gives other bytes");
}

/* ---- a pair ----------------------------------------------------------- */

static bool before(struct field_name a, struct field_name b)
{
    return a.object != b.object ? a.object < b.object
         : a.number != b.number ? a.number < b.number
         : a.field < b.field;
}

static void expect_order(struct where at, const struct found *found)
{
    for (size_t k = 1; k < found->entries; k++) {
        expect(before(found->list[k - 1].name, found->list[k].name), at,
               "entries out of order");
    }
}

/* Slots and list places that the one uses, and not the other. */
static uint64_t used_alone(const struct tables *one,
                           const struct tables *other, uint32_t object)
{
    uint64_t sum = 0;

    for (uint32_t n = 0; n < rows_in_use(&one->sizes, object); n++) {
        for (uint32_t f = 0; f < fields_of(object); f++) {
            struct spot at;

            find_field((struct field_name){ object, n, f }, &at);
            sum += field_counts(one, &at) && !field_counts(other, &at);
        }
    }
    return sum;
}

static void note(const struct tables *first, const struct tables *second,
                 const struct found *found)
{
    matches.entries += found->entries;
    matches.empty += found->entries == 0;
    matches.came_to_use += used_alone(second, first, OBJECT_MAILBOX)
        + used_alone(second, first, OBJECT_POOL);
    matches.went_from_it += used_alone(first, second, OBJECT_MAILBOX)
        + used_alone(first, second, OBJECT_POOL);
}

void both_compare(struct where at, const struct two_plants *two,
                  struct found *found)
{
    struct tables first = seconds_of(&two->first);
    struct tables second = seconds_of(&two->second);

    found->entries = 0;
    found->code = compare_tables(&first, &second, found->list, ALL_FIELDS,
                                 &found->entries);
    try_rooms(at, two, found);
    if (found->code != 0) {
        return;
    }
    expect_order(at, found);
    expect((found->entries == 0) == same_in_what_counts(&first, &second), at,
           "an empty list and equal tables do not go together");
    expect_there(at, two, found);
    note(&first, &second, found);
}

/* ---- odd lists -------------------------------------------------------- */

static uint32_t some_number(struct random *r, uint32_t limit)
{
    switch (random_below(r, 8)) {
    case 0:
        return limit;
    case 1:
        return UINT32_MAX - random_below(r, 2);
    case 2:
        return random_word(r);
    default:
        return random_below(r, limit + 1);
    }
}

/* One that was found, the one before it, or any five numbers, mostly near those
   of a field. */
static struct change some_change(struct random *r, const struct found *found,
                                 const struct change *last)
{
    struct change c = *last;
    uint32_t object = random_below(r, OBJECTS);

    if (found->entries > 0 && random_chance(r, 30)) {
        c = found->list[random_below(r, (uint32_t)found->entries)];
    } else if (random_chance(r, 80)) {
        c.name.object = random_chance(r, 90) ? object
                                             : some_number(r, OBJECTS);
        c.name.number = some_number(r, object_rows(object));
        c.name.field = some_number(r, fields_of(object));
    }
    c.old_value = some_number(r, 40);
    c.new_value = some_number(r, 40);
    return c;
}

void both_apply_oddly(struct random *r, struct where at,
                      const struct plant *plant, const struct found *found)
{
    struct change list[ODD_ENTRIES + 1], kept[ODD_ENTRIES + 1];
    struct change last = { { 0, 0, 0 }, 0, 0 };
    struct plant changed = *plant;
    size_t entries = random_below(r, ODD_ENTRIES + 1);
    size_t numbers = entries * NUMBERS + random_below(r, NUMBERS);

    for (size_t k = 0; k <= entries; k++) {
        list[k] = last = some_change(r, found, &last);
        kept[k] = last;
    }
    matches.odd_lists++;
    matches.passed_over += both_apply(at, &changed, list, numbers);
    expect(memcmp(list, kept, (entries + 1) * sizeof list[0]) == 0, at,
           "applying changed the list");
}
