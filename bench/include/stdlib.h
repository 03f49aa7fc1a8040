/* See stddef.h. */
#ifndef BENCH_STDLIB_H
#define BENCH_STDLIB_H
#include <stddef.h>
void exit(int);
void free(void *);
void *malloc(size_t);
unsigned long long strtoull(const char *, char **, int);
#endif
