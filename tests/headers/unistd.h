/* For x86-64: tests/headers/README.md says why. */
#ifndef STUB_UNISTD_H
#define STUB_UNISTD_H
#include <stddef.h>
typedef long ssize_t;
ssize_t read(int, void *, size_t);
ssize_t write(int, const void *, size_t);
int close(int);
int isatty(int);
int tcgetpgrp(int);
#endif
