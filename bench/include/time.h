/* See stddef.h. Linux on x86-64. */
#ifndef BENCH_TIME_H
#define BENCH_TIME_H
struct timespec {
    long tv_sec, tv_nsec;
};
#define CLOCK_MONOTONIC 1
int clock_gettime(int, struct timespec *);
#endif
