/* Bytes copied and set: what the compilers call where they have no C library. Words at a time where both places begin at one. */
#include <stddef.h>
#include <stdint.h>

typedef uint32_t __attribute__((may_alias)) word; /* four bytes of whatever lies there */

static int at_words(const void *a, const void *b)
{
    return ((uintptr_t)a | (uintptr_t)b) % 4 == 0;
}

void *memcpy(void *restrict to, const void *restrict from, size_t n)
{
    uint8_t *t = to;
    const uint8_t *f = from;
    if (at_words(to, from))
        for (; n >= 4; n -= 4, t += 4, f += 4) *(word *)(void *)t = *(const word *)(const void *)f;
    while (n--) *t++ = *f++;
    return to;
}

void *memmove(void *to, const void *from, size_t n)
{
    uint8_t *t = to;
    const uint8_t *f = from;
    if ((uintptr_t)to - (uintptr_t)from >= n) return memcpy(to, from, n);
    while (n--) t[n] = f[n];
    return to;
}

void *memset(void *to, int with, size_t n)
{
    uint8_t *t = to;
    word four = (uint8_t)with * 0x01010101u;
    if (at_words(to, to))
        for (; n >= 4; n -= 4, t += 4) *(word *)(void *)t = four;
    while (n--) *t++ = (uint8_t)with;
    return to;
}

/* the same by the names of the ARM run-time ABI: 4 and 8 say where the places begin; clr is set to 0, and set has the length first */
#define COPIES(name) void name(void *to, const void *from, size_t n)
#define CLEARS(name) void name(void *to, size_t n)
#define SETS(name) void name(void *to, size_t n, int with)
COPIES(__aeabi_memcpy); COPIES(__aeabi_memcpy4); COPIES(__aeabi_memcpy8);
COPIES(__aeabi_memmove); COPIES(__aeabi_memmove4); COPIES(__aeabi_memmove8);
CLEARS(__aeabi_memclr); CLEARS(__aeabi_memclr4); CLEARS(__aeabi_memclr8);
SETS(__aeabi_memset); SETS(__aeabi_memset4); SETS(__aeabi_memset8);

COPIES(__aeabi_memcpy) { memcpy(to, from, n); }
COPIES(__aeabi_memcpy4) { memcpy(to, from, n); }
COPIES(__aeabi_memcpy8) { memcpy(to, from, n); }
COPIES(__aeabi_memmove) { memmove(to, from, n); }
COPIES(__aeabi_memmove4) { memmove(to, from, n); }
COPIES(__aeabi_memmove8) { memmove(to, from, n); }
CLEARS(__aeabi_memclr) { memset(to, 0, n); }
CLEARS(__aeabi_memclr4) { memset(to, 0, n); }
CLEARS(__aeabi_memclr8) { memset(to, 0, n); }
SETS(__aeabi_memset) { memset(to, with, n); }
SETS(__aeabi_memset4) { memset(to, with, n); }
SETS(__aeabi_memset8) { memset(to, with, n); }
