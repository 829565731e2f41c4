/* Seconds on a clock that is never set back. Define _POSIX_C_SOURCE as 200809L before the first include. */
#ifndef SECONDS_H
#define SECONDS_H
#include <time.h>

static inline double seconds_now(void)
{
    struct timespec t;
    clock_gettime(CLOCK_MONOTONIC, &t);
    return (double)t.tv_sec + (double)t.tv_nsec * 1e-9;
}
#endif
