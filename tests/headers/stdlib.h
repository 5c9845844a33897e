/* For x86-64: tests/headers/README.md says why. */
#ifndef STUB_STDLIB_H
#define STUB_STDLIB_H
unsigned long strtoul(const char *, char **, int);
#endif
