/* C's own header, as much of it as the hosts use (see stddef.h), for Linux on x86-64. */
#ifndef TIME_H
#define TIME_H
struct timespec {
    long tv_sec;
    long tv_nsec;
};
#define CLOCK_MONOTONIC 1
#define CLOCK_PROCESS_CPUTIME_ID 2
int clock_gettime(int clock, struct timespec *at);
#endif
