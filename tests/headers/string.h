/* For x86-64: tests/headers/README.md says why. */
#ifndef STUB_STRING_H
#define STUB_STRING_H
#include <stddef.h>
int strcmp(const char *, const char *);
char *strerror(int);
void *memset(void *, int, size_t);
void *memcpy(void *, const void *, size_t);
void *memmove(void *, const void *, size_t);
void *memchr(const void *, int, size_t);
#endif
