/* The time of the day is what a file says: CLOCK names it, and it holds the seconds since 1970 in digits. All other clocks are the system's. */
#define _GNU_SOURCE
#include <dlfcn.h>
#include <stdio.h>
#include <stdlib.h>
#include <time.h>

#include "shim.h"

int clock_gettime(clockid_t clock, struct timespec *time)
{
    REAL(int, "clock_gettime", clockid_t, struct timespec *);
    const char *name = getenv("CLOCK");
    FILE *file = clock == CLOCK_REALTIME && name ? fopen(name, "r") : NULL;
    if (!file)
        return real(clock, time);
    long second = 0;
    int found = fscanf(file, "%ld", &second);
    fclose(file);
    if (found != 1)
        return real(clock, time);
    time->tv_sec = second;
    time->tv_nsec = 0;
    return 0;
}
