/* A line is read loosely, and then must be just what would be written of the
   entry that was read. */
#include "entries.h"

#include <inttypes.h>
#include <stdio.h>
#include <stdlib.h>
#include <string.h>

/* Room for a field's word and the place in brackets behind it. */
enum { WORD_TEXT = 24 };

/* A value as it is shown. */
static int64_t shown(const struct field *f, uint32_t value)
{
    bool below_0 = f->is_signed && value >= UINT32_C(2147483648);

    return below_0 ? (int64_t)value - INT64_C(4294967296) : (int64_t)value;
}

static void field_text(const struct spot *at, char *text)
{
    if (at->row->several == 1) {
        snprintf(text, WORD_TEXT, "%s", at->row->word);
    } else {
        snprintf(text, WORD_TEXT, "%s[%" PRIu32 "]", at->row->word,
                 at->place);
    }
}

bool entry_text(const struct change *c, char *text)
{
    char word[WORD_TEXT];
    struct spot at;

    if (!find_field(c->name, &at)) {
        return false;
    }
    field_text(&at, word);
    snprintf(text, ENTRY_TEXT, "%s %" PRIu32 " %s %" PRId64 " %" PRId64,
             object_word(c->name.object), c->name.number, word,
             shown(at.row, c->old_value), shown(at.row, c->new_value));
    return true;
}

/* ---- reading ---------------------------------------------------------- */

static bool find_object(const char *word, uint32_t *object)
{
    for (uint32_t k = 0; k < OBJECTS; k++) {
        if (strcmp(word, object_word(k)) == 0) {
            *object = k;
            return true;
        }
    }
    return false;
}

/* Of the name's object. */
static bool find_word(const char *word, struct field_name *name)
{
    char text[WORD_TEXT];
    struct spot at;

    for (name->field = 0; find_field(*name, &at); name->field++) {
        field_text(&at, text);
        if (strcmp(word, text) == 0) {
            return true;
        }
    }
    return false;
}

/* Digits too many, or none, show by what is written of the number. */
static uint32_t read_value(const char *word)
{
    return (uint32_t)strtoll(word, NULL, 10);
}

bool read_entry(const char *text, struct change *c)
{
    char word[5][ENTRY_TEXT], written[ENTRY_TEXT];
    struct change found;

    if (strlen(text) >= ENTRY_TEXT
        || sscanf(text, "%s %s %s %s %s", word[0], word[1], word[2], word[3],
                  word[4]) != 5
        || !find_object(word[0], &found.name.object)) {
        return false;
    }
    found.name.number = read_value(word[1]);
    if (!find_word(word[2], &found.name)) {
        return false;
    }
    found.old_value = read_value(word[3]);
    found.new_value = read_value(word[4]);
    if (!entry_text(&found, written) || strcmp(text, written) != 0) {
        return false;
    }
    *c = found;
    return true;
}
