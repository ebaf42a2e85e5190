/* The list goes through all names in order. Equality does not go by names: it
   copies what counts, and nothing else, and compares the copies. */
#include "compare.h"

#include "trace.h"

#include <string.h>

/* ---- the list --------------------------------------------------------- */

static bool same_sizes(const struct sizes *a, const struct sizes *b)
{
    if (a->threads != b->threads || a->semaphores != b->semaphores
        || a->queues != b->queues || a->references != b->references
        || a->mailboxes != b->mailboxes || a->pools != b->pools) {
        return false;
    }
    for (uint32_t m = 0; m < a->mailboxes; m++) {
        if (a->slots[m] != b->slots[m]) {
            return false;
        }
    }
    return true;
}

/* A list being made. It cannot be longer than all fields. */
struct making {
    struct tables first;
    struct tables second;
    size_t number;
    struct change list[ALL_FIELDS];
};

/* "One used only in the second is listed with old 0, one used only in the
   first not at all." */
static void compare_field(struct making *w, struct field_name name)
{
    struct spot at;
    bool before;
    uint32_t old_value, new_value;

    if (!find_field(name, &at) || !field_counts(&w->second, &at)) {
        return;
    }
    before = field_counts(&w->first, &at);
    old_value = before ? *field_at(&w->first, &at) : 0;
    new_value = *field_at(&w->second, &at);
    if (!before || old_value != new_value) {
        w->list[w->number++] = (struct change){ name, old_value, new_value };
    }
}

static void compare_object(struct making *w, uint32_t object)
{
    uint32_t fields = fields_of(object);

    for (uint32_t n = 0; n < rows_in_use(&w->second.sizes, object); n++) {
        for (uint32_t f = 0; f < fields; f++) {
            compare_field(w, (struct field_name){ object, n, f });
        }
    }
}

/* "1 for tables that don't hang together, first input before second; 5 if the
   sizes or slots differ; 16 if the list's room is too small, with nothing
   written." */
uint32_t compare_tables(const struct tables *first,
                        const struct tables *second, struct change *list,
                        size_t room, size_t *entries)
{
    struct making w;

    if (!tables_hang_together(first) || !tables_hang_together(second)) {
        return BROKEN_TABLES;
    }
    if (!same_sizes(&first->sizes, &second->sizes)) {
        return BAD_OBJECT;
    }
    w.first = *first;
    w.second = *second;
    w.number = 0;
    number_places(&w.first);
    number_places(&w.second);
    for (uint32_t object = 0; object < OBJECTS; object++) {
        compare_object(&w, object);
    }
    if (w.number > room) {
        return NO_SPACE;
    }
    memcpy(list, w.list, w.number * sizeof *list);
    *entries = w.number;
    return ACCEPTED;
}

/* ---- applying --------------------------------------------------------- */

static uint32_t cut(uint32_t value, uint32_t bytes)
{
    return bytes < 4 ? value & ((UINT32_C(1) << 8 * bytes) - 1) : value;
}

static uint32_t at_most(uint32_t size, uint32_t limit)
{
    return size < limit ? size : limit;
}

/* The sizes may be out of their limits: there are no rows beyond these. */
static void make_words_anew(struct tables *t)
{
    struct sizes given = t->sizes;
    struct sizes *z = &t->sizes;

    z->threads = at_most(given.threads, MAX_THREADS);
    z->semaphores = at_most(given.semaphores, MAX_SEMAPHORES);
    z->queues = at_most(given.queues, MAX_QUEUES);
    z->mailboxes = at_most(given.mailboxes, MAX_MAILBOXES);
    z->pools = at_most(given.pools, MAX_POOLS);
    make_words(t);
    t->sizes = given;
}

size_t apply_changes(struct tables *t, const struct change *list,
                     size_t entries)
{
    size_t passed_over = 0;

    number_places(t);
    for (size_t k = 0; k < entries; k++) {
        struct spot at;

        if (find_field(list[k].name, &at)) {
            *field_at(t, &at) = cut(list[k].new_value, at.row->bytes);
        } else {
            passed_over++;
        }
    }
    read_places(t);
    make_words_anew(t);
    return passed_over;
}

/* ---- equality --------------------------------------------------------- */

static void count_sizes(const struct sizes *from, struct sizes *to)
{
    *to = *from;
    memset(to->slots, 0, sizeof to->slots);
    memcpy(to->slots, from->slots, from->mailboxes * sizeof to->slots[0]);
}

static void count_threads(const struct tables *from, struct tables *to)
{
    for (uint32_t i = 0; i < from->sizes.threads; i++) {
        to->thread[i] = from->thread[i];
    }
    number_places(to);
}

/* The messages one after the other, from the read place on. */
static void count_mailbox(const struct mailbox *from, uint32_t slots,
                          struct mailbox *to)
{
    uint32_t at = from->read;

    *to = *from;
    memset(to->slot, 0, sizeof to->slot);
    for (uint32_t k = 0; k < from->count; k++) {
        to->slot[at] = from->slot[at];
        at = at + 1 == slots ? 0 : at + 1;
    }
}

static void count_pool(const struct pool *from, struct pool *to)
{
    *to = *from;
    memset(to->list, 0, sizeof to->list);
    memcpy(to->list, from->list, from->length * sizeof to->list[0]);
}

/* The words by a copy of them: word_at wants words that it may change. */
static void count_words(const struct tables *from, struct tables *to)
{
    struct places all = places_in_use(&from->sizes);
    struct words words = from->words;

    to->words.ready = words.ready;
    for (uint32_t k = 0; k < all.number; k++) {
        *word_at(&to->words, all.at[k]) = *word_at(&words, all.at[k]);
    }
}

/* "Unused mailbox slots and free-list places beyond the length don't count as
   fields, here or in that result"; rows beyond the sizes are no part of the
   tables. */
static void count(const struct tables *from, struct tables *to)
{
    const struct sizes *z = &from->sizes;

    memset(to, 0, sizeof *to);
    count_sizes(z, &to->sizes);
    count_threads(from, to);
    memcpy(to->semaphore, from->semaphore,
           z->semaphores * sizeof to->semaphore[0]);
    memcpy(to->queue, from->queue, z->queues * sizeof to->queue[0]);
    memcpy(to->reference, from->reference,
           z->references * sizeof to->reference[0]);
    for (uint32_t m = 0; m < z->mailboxes; m++) {
        count_mailbox(&from->mailbox[m], z->slots[m], &to->mailbox[m]);
    }
    for (uint32_t p = 0; p < z->pools; p++) {
        count_pool(&from->pool[p], &to->pool[p]);
    }
    count_words(from, to);
    to->clock = from->clock;
    to->steps = from->steps;
}

bool same_in_what_counts(const struct tables *a, const struct tables *b)
{
    struct tables of_a, of_b;

    count(a, &of_a);
    count(b, &of_b);
    return memcmp(&of_a, &of_b, sizeof of_a) == 0;
}
