/* The generator: generate SEED [SHAPE]. */
#include "scenario.h"

#include <errno.h>
#include <stdio.h>
#include <stdlib.h>
#include <string.h>

static void print_usage(FILE *to)
{
    fputs("usage: generate SEED [SHAPE]\n"
          "Writes one random trace to standard output, the same for a seed\n"
          "on every machine. Without a shape the seed chooses one of:\n ",
          to);
    for (uint32_t k = 0; k < SHAPES; k++) {
        fprintf(to, " %s", shape_name(k));
    }
    fputc('\n', to);
}

/* Decimal digits only: no sign, no blanks, nothing behind. */
static bool read_seed(const char *text, uint64_t *seed)
{
    char *end;

    if (text[0] < '0' || text[0] > '9') {
        return false;
    }
    errno = 0;
    *seed = strtoull(text, &end, 10);
    return errno == 0 && *end == '\0';
}

int main(int argc, char **argv)
{
    static struct bytes trace;
    uint32_t shape = SHAPE_ANY;
    uint64_t seed = 0;

    if (argc == 2 && strcmp(argv[1], "--help") == 0) {
        print_usage(stdout);
        return 0;
    }
    if (argc < 2 || argc > 3 || !read_seed(argv[1], &seed)
        || (argc == 3 && !shape_by_name(argv[2], &shape))) {
        print_usage(stderr);
        return 2;
    }
    make_scenario(seed, shape, &trace);
    if (fwrite(trace.at, 1, trace.length, stdout) != trace.length
        || fflush(stdout) != 0) {
        fputs("generate: standard output: cannot be written\n", stderr);
        return 1;
    }
    return 0;
}
