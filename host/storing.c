/* A file is as long as saved tables may be found to be, and some bytes more. */
#include "storing.h"

#include "saved.h"

#include <string.h>

enum { GUARD = 16, SPACE = NIL_SAVED + 40, PATTERN = 0x33 };

uint64_t save_codes[CODES];
uint64_t load_codes[CODES];

struct file_area {
    uint8_t before[GUARD];
    uint8_t bytes[SPACE];
    uint8_t after[GUARD];
};

struct plant_area {
    uint8_t before[GUARD];
    struct plant plant;
    uint8_t after[GUARD];
};

/* ---- saving ----------------------------------------------------------- */

/* Into so many bytes; the file is then as the archive leaves it. */
static uint32_t both_save(struct where at, const struct plant *plant,
                          size_t room, struct file_area *file)
{
    struct file_area want;
    struct tables t;
    uint32_t code;

    memset(file, PATTERN, sizeof *file);
    want = *file;
    to_second(&plant->tables, &plant->clock, &t);
    code = save_tables(&t, want.bytes, room);
    expect(nil_save(&plant->tables, &plant->clock, file->bytes, room) == code,
           at, "the codes of a save differ");
    expect(memcmp(file, &want, sizeof want) == 0, at,
           "the bytes of a save differ");
    save_codes[code]++;
    return code;
}

/* ---- loading ---------------------------------------------------------- */

/* Over a plant that is there, and stays where the file is refused. */
static uint32_t both_load(struct where at, const struct file_area *file,
                          size_t length, struct plant *plant)
{
    struct file_area kept = *file;
    struct plant_area area, want;
    struct tables t;
    uint32_t code;

    memset(&area, PATTERN, sizeof area);
    area.plant = *plant;
    want = area;
    to_second(&plant->tables, &plant->clock, &t);
    code = load_tables(&t, file->bytes, length);
    from_second(&t, &want.plant.tables, &want.plant.clock);
    expect(nil_load(file->bytes, length, &area.plant.tables,
                    &area.plant.clock) == code,
           at, "the codes of a load differ");
    expect(memcmp(&area, &want, sizeof want) == 0, at,
           "the bytes of a load differ");
    expect(code == 0 || memcmp(&area.plant, plant, sizeof *plant) == 0, at,
           "a refused load changed a byte");
    expect(memcmp(file, &kept, sizeof kept) == 0, at,
           "a load changed its file");
    load_codes[code]++;
    *plant = area.plant;
    return code;
}

/* Of a file that is cut or goes on: near the limits, or any. */
static size_t some_length(struct random *r)
{
    static const size_t near[] = {
        0, 1, 3, 4, 5, 8, NIL_SAVED - 1, NIL_SAVED + 1, SPACE
    };
    uint32_t which = random_below(r, 2 * sizeof near / sizeof near[0]);

    return which < sizeof near / sizeof near[0] ? near[which]
                                                : random_below(r, SPACE + 1);
}

/* One bit of the head or of the rest, two bytes exchanged, or another byte of
   the layout number; nothing at times. */
static void damage_file(struct random *r, struct file_area *file)
{
    uint32_t one = random_below(r, NIL_SAVED), other;
    uint32_t bit = UINT32_C(1) << random_below(r, 8);
    uint8_t byte = file->bytes[one];

    switch (random_below(r, 5)) {
    case 0:
        file->bytes[one % 8] ^= (uint8_t)bit;
        break;
    case 1:
        file->bytes[one] ^= (uint8_t)bit;
        break;
    case 2:
        other = random_below(r, NIL_SAVED);
        file->bytes[one] = file->bytes[other];
        file->bytes[other] = byte;
        break;
    case 3:
        file->bytes[one % 4] = (uint8_t)random_below(r, 5);
        break;
    default:
        break;
    }
}

void both_store(struct random *r, struct where at, const struct plant *plant)
{
    static struct file_area file;
    struct plant loaded;
    size_t length = random_chance(r, 50) ? NIL_SAVED : some_length(r);

    both_save(at, plant, random_below(r, NIL_SAVED), &file);
    both_save(at, plant, NIL_SAVED - 1, &file);
    both_save(at, plant, SPACE, &file);
    expect(both_save(at, plant, NIL_SAVED, &file) == 0, at,
           "tables cannot be saved");
    memset(&loaded, 0xee, sizeof loaded);
    expect(both_load(at, &file, NIL_SAVED, &loaded) == 0
           && memcmp(&loaded, plant, sizeof loaded) == 0, at,
           "saved tables do not come back");
    memset(&loaded, 0xee, sizeof loaded);
    damage_file(r, &file);
    both_load(at, &file, length, &loaded);
}
