/* The clock of a PC. cortex-m4/clock.c has another. */
#include <time.h>

#include "frames.h"

double nanoseconds(void)
{
    struct timespec t;
    clock_gettime(CLOCK_MONOTONIC, &t);
    return (double)t.tv_sec * 1e9 + (double)t.tv_nsec;
}
