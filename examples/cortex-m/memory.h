/* What C and the library need of a C library, so that the image has none. */
#ifndef MEMORY_H
#define MEMORY_H
#include <stddef.h>
void *memcpy(void *to, const void *from, size_t length);
void *memmove(void *to, const void *from, size_t length);
void *memset(void *to, int octet, size_t length);
#endif
