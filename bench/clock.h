// The clock. Included before all else: it asks for clock_gettime.
#ifndef CLOCK_H
#define CLOCK_H

#define _POSIX_C_SOURCE 199309L
#include <time.h>

// Seconds since a fixed time.
static inline double now(void) {
    struct timespec t;
    clock_gettime(CLOCK_MONOTONIC, &t);
    return t.tv_sec + t.tv_nsec * 1e-9;
}

#endif
