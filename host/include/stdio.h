#ifndef NIL_TEST_STDIO_H
#define NIL_TEST_STDIO_H

#include <stddef.h>

typedef struct _IO_FILE FILE;

extern FILE *stdout;
extern FILE *stderr;

int printf(const char *restrict format, ...);
int fprintf(FILE *restrict to, const char *restrict format, ...);
int fputs(const char *restrict text, FILE *restrict to);
int fputc(int c, FILE *to);
int puts(const char *text);
int fflush(FILE *to);
size_t fwrite(const void *restrict from, size_t size, size_t n,
              FILE *restrict to);

#endif
