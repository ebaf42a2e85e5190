/* For the two programs that save tables. */
#include "files.h"

#include <errno.h>
#include <stdio.h>

bool write_saved(const char *name, const struct tables *t)
{
    uint8_t bytes[SAVED_BYTES];
    FILE *out;
    bool fine;

    save_tables(t, bytes, sizeof bytes);
    errno = 0;
    out = fopen(name, "wb");
    if (out == NULL) {
        return false;
    }
    fine = fwrite(bytes, 1, sizeof bytes, out) == sizeof bytes;
    return fclose(out) == 0 && fine;
}
