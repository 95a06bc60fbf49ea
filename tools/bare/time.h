/* For x86-64 Linux with no C headers: of the C library's, what the C here uses. */
#ifndef BARE_TIME_H
#define BARE_TIME_H
typedef long time_t;
struct timespec {
    time_t tv_sec;
    long tv_nsec;
};
#define CLOCK_MONOTONIC 1
int clock_gettime(int clock, struct timespec *now);
#endif
