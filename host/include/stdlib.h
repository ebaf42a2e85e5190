#ifndef NIL_TEST_STDLIB_H
#define NIL_TEST_STDLIB_H

#include <stddef.h>

unsigned long strtoul(const char *restrict text, char **restrict end,
                      int base);
unsigned long long strtoull(const char *restrict text, char **restrict end,
                            int base);
_Noreturn void exit(int status);

#endif
