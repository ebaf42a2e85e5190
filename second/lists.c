/* A list is judged by applying it, and by equality, which knows no lists. */
#include "lists.h"

#include "compare.h"

#include <inttypes.h>
#include <stdio.h>

static void note_list(struct lists_seen *seen, const struct tables *before,
                      const struct change *list, size_t entries)
{
    seen->entries += entries;
    seen->empty += entries == 0;
    if (entries > seen->most) {
        seen->most = entries;
    }
    for (size_t k = 0; k < entries; k++) {
        struct spot at;

        seen->new_slots += find_field(list[k].name, &at)
            && !field_counts(before, &at);
    }
}

const char *follow_list(struct lists_seen *seen, const struct moment *m)
{
    static struct change list[ALL_FIELDS];
    struct tables applied = *m->before;
    size_t entries;

    if (compare_tables(m->before, m->after, list, ALL_FIELDS, &entries) != 0) {
        return "no list of what a step changed";
    }
    if ((entries == 0) != same_in_what_counts(m->before, m->after)) {
        return "a list is empty and should not be, or the other way round";
    }
    if (apply_changes(&applied, list, entries) != 0
        || !same_in_what_counts(&applied, m->after)) {
        return "a list does not lead to the tables after the step";
    }
    note_list(seen, m->before, list, entries);
    return NULL;
}

void print_lists(const struct lists_seen *seen)
{
    printf("lists of changes: %" PRIu64 " entries, %" PRIu64 " of slots and "
           "list places that came into use; most in one %" PRIu64
           ", empty lists %" PRIu64 "\n", seen->entries, seen->new_slots,
           seen->most, seen->empty);
}
