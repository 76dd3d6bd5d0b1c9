/* The loop of run.sh over RAM in C: 10^8 turns of one word load and one word store. */
#include <stdint.h>
#include <stdio.h>
#include <stdlib.h>
#include <string.h>

#define BASE 0x80000000u
#define TURNS 100000000ul

static uint8_t *bytes;
static uint32_t size;

static int load(uint32_t addr, uint32_t *value)
{
    uint32_t at = addr - BASE;
    if (addr % 4 != 0)
        return 1;
    if (at >= size)
        return 2;
    memcpy(value, bytes + at, 4);
    return 0;
}

static int store(uint32_t addr, uint32_t value)
{
    uint32_t at = addr - BASE;
    if (addr % 4 != 0)
        return 1;
    if (at >= size)
        return 2;
    memcpy(bytes + at, &value, 4);
    return 0;
}

int main(int argc, char **argv)
{
    (void)argv;
    size = argc == 1 ? 65536 : 131072;
    uint32_t place = 1, sum = 0;
    bytes = calloc(size, 1);
    if (!bytes)
        return 1;
    for (unsigned long turn = 0; turn < TURNS; turn++) {
        uint32_t value = 0;
        place = place * 1664525u + 1013904223u;
        uint32_t addr = BASE + (place >> 14 & 0xfffc);
        if (load(addr, &value) != 0)
            return 1;
        sum = sum + value + 1;
        if (store(addr, sum) != 0)
            return 1;
    }
    printf("%u\n", sum);
    return 0;
}
