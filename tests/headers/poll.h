/* For x86-64: tests/headers/README.md says why. */
#ifndef STUB_POLL_H
#define STUB_POLL_H
#include <signal.h>
#include <time.h>
#define POLLIN 1
#define POLLOUT 4
struct pollfd {
    int fd;
    short events, revents;
};
int ppoll(struct pollfd *, unsigned long, const struct timespec *, const sigset_t *);
#endif
