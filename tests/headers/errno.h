/* For x86-64: tests/headers/README.md says why. */
#ifndef STUB_ERRNO_H
#define STUB_ERRNO_H
#define ENOENT 2
#define EINTR 4
#define EAGAIN 11
int *__errno_location(void);
#define errno (*__errno_location())
#endif
