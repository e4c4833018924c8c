/* What is used of <time.h>, as POSIX has it on Linux. */
#ifndef TIME_H
#define TIME_H

struct timespec {
    long tv_sec;
    long tv_nsec;
};

enum { CLOCK_MONOTONIC = 1 };

int clock_gettime(int clock, struct timespec *now);

#endif
