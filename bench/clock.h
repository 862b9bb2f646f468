/* The processor's time of this process, and whether another one has a share of the processor's core. */
#ifndef BENCH_CLOCK_H
#define BENCH_CLOCK_H

#include <stdint.h>
#include <time.h>

/* so far, in nanoseconds */
static double now(void) {
    struct timespec t;
    clock_gettime(CLOCK_PROCESS_CPUTIME_ID, &t);
    return (double)t.tv_sec * 1e9 + (double)t.tv_nsec;
}

/* Nanoseconds of 64,000 additions in four chains: twice as many while a neighbour, who needn't be of this machine, is busy on the same core. */
static inline double gauge(void) {
    uint64_t a = 0, b = 0, c = 0, d = 0;
    double begun = now();
    for (int i = 0; i < 2000; i++)
        __asm__ volatile(".rept 8\nadd $1,%0\nadd $1,%1\nadd $1,%2\nadd $1,%3\n.endr" : "+r"(a), "+r"(b), "+r"(c), "+r"(d));
    return now() - begun;
}

/* of a call of run, in nanoseconds, by this many of them */
static inline double time_of(void (*run)(void), double calls) {
    double begun = now(), left;
    for (left = calls; left > 0; left--) run();
    return (now() - begun) / calls;
}

#endif
