#include "memory.h"

#include <stdint.h>

typedef uint32_t __attribute__((may_alias)) word;

static int are_aligned(const void *a, const void *b)
{
    return (((uintptr_t)a | (uintptr_t)b) & 3) == 0;
}

/* From the front on, in words where both are at multiples of four. */
void *memcpy(void *to, const void *from, size_t count)
{
    word *words = to;
    const word *source = from;
    if (are_aligned(to, from))
        for (; count >= 4; count -= 4)
            *words++ = *source++;
    uint8_t *out = (uint8_t *)words;
    const uint8_t *in = (const uint8_t *)source;
    while (count--)
        *out++ = *in++;
    return to;
}

void *memmove(void *to, const void *from, size_t count)
{
    uint8_t *out = to;
    const uint8_t *in = from;
    if (out <= in || out >= in + count)
        return memcpy(to, from, count);
    while (count--)
        out[count] = in[count];
    return to;
}

void *memset(void *to, int value, size_t count)
{
    uint8_t *out = to;
    while (count--)
        *out++ = (uint8_t)value;
    return to;
}

int memcmp(const void *a, const void *b, size_t count)
{
    const uint8_t *one = a, *other = b;
    for (; count--; one++, other++)
        if (*one != *other)
            return *one - *other;
    return 0;
}
