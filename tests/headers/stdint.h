/* For x86-64: tests/headers/README.md says why. */
#ifndef STUB_STDINT_H
#define STUB_STDINT_H
typedef unsigned char uint8_t;
typedef unsigned short uint16_t;
typedef unsigned int uint32_t;
typedef unsigned long uint64_t;
#endif
