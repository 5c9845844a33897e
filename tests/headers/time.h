/* For x86-64: tests/headers/README.md says why. */
#ifndef STUB_TIME_H
#define STUB_TIME_H
#define CLOCK_MONOTONIC 1
struct timespec {
    long tv_sec, tv_nsec;
};
int clock_gettime(int, struct timespec *);
#endif
