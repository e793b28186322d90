/*
 * Memory copied and filled, by C's names and by those of Arm's convention, which the library for Cortex-M asks for. Words at a time
 * where both lie so, octets otherwise: no unaligned access. Mind that __aeabi_memset has its arguments in another order than memset.
 */
#include "memory.h"

#include <stdint.h>

typedef uint32_t __attribute__((may_alias)) word;

static int is_even(const void *one, const void *other)
{
    return (((uintptr_t)one | (uintptr_t)other) & 3) == 0;
}

void *memcpy(void *to, const void *from, size_t length)
{
    uint8_t *t = to;
    const uint8_t *f = from;

    if (is_even(to, from)) {
        for (; length >= 16; length -= 16, t += 16, f += 16) {
            ((word *)(void *)t)[0] = ((const word *)(const void *)f)[0];
            ((word *)(void *)t)[1] = ((const word *)(const void *)f)[1];
            ((word *)(void *)t)[2] = ((const word *)(const void *)f)[2];
            ((word *)(void *)t)[3] = ((const word *)(const void *)f)[3];
        }
        for (; length >= 4; length -= 4, t += 4, f += 4)
            *(word *)(void *)t = *(const word *)(const void *)f;
    }
    for (; length > 0; length--)
        *t++ = *f++;
    return to;
}

void *memmove(void *to, const void *from, size_t length)
{
    uint8_t *t = to;
    const uint8_t *f = from;

    if ((uintptr_t)t - (uintptr_t)f >= length) /* it ends before `from`, or begins past its end */
        return memcpy(to, from, length);
    while (length > 0) {
        length--;
        t[length] = f[length];
    }
    return to;
}

void *memset(void *to, int octet, size_t length)
{
    uint8_t *t = to;
    uint32_t four = (uint8_t)octet * UINT32_C(0x01010101);

    if (is_even(to, to)) {
        for (; length >= 4; length -= 4, t += 4)
            *(word *)(void *)t = four;
    }
    for (; length > 0; length--)
        *t++ = (uint8_t)octet;
    return to;
}

void __aeabi_memcpy(void *to, const void *from, size_t length);
void __aeabi_memmove(void *to, const void *from, size_t length);
void __aeabi_memset(void *to, size_t length, int octet);
void __aeabi_memclr(void *to, size_t length);
void __aeabi_memcpy4(void *to, const void *from, size_t length) __attribute__((alias("__aeabi_memcpy")));
void __aeabi_memcpy8(void *to, const void *from, size_t length) __attribute__((alias("__aeabi_memcpy")));
void __aeabi_memmove4(void *to, const void *from, size_t length) __attribute__((alias("__aeabi_memmove")));
void __aeabi_memmove8(void *to, const void *from, size_t length) __attribute__((alias("__aeabi_memmove")));
void __aeabi_memset4(void *to, size_t length, int octet) __attribute__((alias("__aeabi_memset")));
void __aeabi_memset8(void *to, size_t length, int octet) __attribute__((alias("__aeabi_memset")));
void __aeabi_memclr4(void *to, size_t length) __attribute__((alias("__aeabi_memclr")));
void __aeabi_memclr8(void *to, size_t length) __attribute__((alias("__aeabi_memclr")));

void __aeabi_memcpy(void *to, const void *from, size_t length)
{
    memcpy(to, from, length);
}

void __aeabi_memmove(void *to, const void *from, size_t length)
{
    memmove(to, from, length);
}

void __aeabi_memset(void *to, size_t length, int octet)
{
    memset(to, octet, length);
}

void __aeabi_memclr(void *to, size_t length)
{
    memset(to, 0, length);
}
