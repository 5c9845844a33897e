/* For x86-64: tests/headers/README.md says why. */
#ifndef STUB_FCNTL_H
#define STUB_FCNTL_H
#define O_RDONLY 0
#define O_RDWR 2
#define O_NOCTTY 0x100
#define O_NONBLOCK 0x800
#define O_CLOEXEC 0x80000
#define F_SETFL 4
int open(const char *, int, ...);
int fcntl(int, int, ...);
#endif
