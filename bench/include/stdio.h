/* See stddef.h. */
#ifndef BENCH_STDIO_H
#define BENCH_STDIO_H
#include <stddef.h>
typedef struct _IO_FILE FILE;
extern FILE *stdout;
int fflush(FILE *);
int printf(const char *, ...);
int putchar(int);
int snprintf(char *, size_t, const char *, ...);
#endif
