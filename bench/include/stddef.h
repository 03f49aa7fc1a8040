/* The few names of the C library that are used here, for the toolchain's own compiler, which has no headers; those of the machine may be
 * another processor's. */
#ifndef BENCH_STDDEF_H
#define BENCH_STDDEF_H
typedef __SIZE_TYPE__ size_t;
#define NULL ((void *)0)
#endif
