/* The comparing program: changes OLD NEW, or changes --apply OLD LIST NEW. */
#include "entries.h"
#include "files.h"

#include <errno.h>
#include <inttypes.h>
#include <stdio.h>
#include <string.h>

enum { EXIT_SAME = 0, EXIT_DIFFERENT = 1, EXIT_TROUBLE = 2, EXIT_REFUSED = 3 };

static const char USAGE[] =
    "usage: changes OLD NEW\n"
    "       changes --apply OLD LIST NEW\n"
    "Lists what differs between two files of saved tables, a field a line;\n"
    "or applies such a list to OLD, and saves what comes of it as NEW.\n"
    "Exit status: 0 the same, or applied; 1 different; 2 wrong usage, a file\n"
    "that cannot be read or written, or a line that is no entry; 3 refused,\n"
    "with `refused' and the number printed.\n";

static int complain(const char *name)
{
    const char *why = errno != 0 ? strerror(errno)
                                 : "cannot be read or written";

    fprintf(stderr, "changes: %s: %s\n", name, why);
    return EXIT_TROUBLE;
}

static int refuse(uint32_t code)
{
    printf("refused %" PRIu32 "\n", code);
    return EXIT_REFUSED;
}

/* One byte more than saved tables have is read, to see refusal 13. */
static int load(const char *name, struct tables *t)
{
    uint8_t bytes[SAVED_BYTES + 1];
    size_t length;
    uint32_t code;
    FILE *in;
    bool fine;

    errno = 0;
    in = fopen(name, "rb");
    if (in == NULL) {
        return complain(name);
    }
    length = fread(bytes, 1, sizeof bytes, in);
    fine = !ferror(in);
    fclose(in);
    if (!fine) {
        return complain(name);
    }
    code = load_tables(t, bytes, length);
    return code == ACCEPTED ? EXIT_SAME : refuse(code);
}

static int save(const char *name, const struct tables *t)
{
    return write_saved(name, t) ? EXIT_SAME : complain(name);
}

static int print_changes(const struct tables *first,
                         const struct tables *second)
{
    static struct change list[ALL_FIELDS];
    char text[ENTRY_TEXT];
    size_t entries = 0;
    uint32_t code = compare_tables(first, second, list, ALL_FIELDS, &entries);

    if (code != ACCEPTED) {
        return refuse(code);
    }
    for (size_t k = 0; k < entries; k++) {
        entry_text(&list[k], text);
        puts(text);
    }
    return entries == 0 ? EXIT_SAME : EXIT_DIFFERENT;
}

/* A longer line than any entry's comes in parts, none of which is an entry. */
static int apply_lines(FILE *in, const char *name, struct tables *t)
{
    char line[ENTRY_TEXT + 1];
    struct change c;

    while (fgets(line, sizeof line, in) != NULL) {
        line[strcspn(line, "\n")] = '\0';
        if (!read_entry(line, &c)) {
            fprintf(stderr, "changes: %s: no entry: %s\n", name, line);
            return EXIT_TROUBLE;
        }
        apply_changes(t, &c, 1);
    }
    return ferror(in) ? complain(name) : EXIT_SAME;
}

static int apply_list(const char *name, struct tables *t)
{
    FILE *in;
    int status;

    errno = 0;
    in = fopen(name, "r");
    if (in == NULL) {
        return complain(name);
    }
    status = apply_lines(in, name, t);
    fclose(in);
    return status;
}

static int run(int words, char **word)
{
    static struct tables first, second;
    bool applies = words == 4 && strcmp(word[0], "--apply") == 0;
    int status;

    if (!applies && (words != 2 || word[0][0] == '-')) {
        fputs(USAGE, stderr);
        return EXIT_TROUBLE;
    }
    status = load(word[applies ? 1 : 0], &first);
    if (status == EXIT_SAME) {
        status = applies ? apply_list(word[2], &first)
                         : load(word[1], &second);
    }
    if (status == EXIT_SAME) {
        status = applies ? save(word[3], &first)
                         : print_changes(&first, &second);
    }
    return status;
}

int main(int argc, char **argv)
{
    int status;

    if (argc == 2 && strcmp(argv[1], "--help") == 0) {
        fputs(USAGE, stdout);
        return EXIT_SAME;
    }
    status = run(argc - 1, argv + 1);
    errno = 0;
    return fflush(stdout) == 0 && !ferror(stdout)
        ? status : complain("standard output");
}
