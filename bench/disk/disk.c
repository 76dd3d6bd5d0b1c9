/* The disk of run.sh in C: requests of 4 KiB go through a ring in RAM, and blocks are copied between two arrays. */
#include <stdint.h>
#include <stdio.h>
#include <stdlib.h>
#include <string.h>

#define SIZE 98304u
#define TABLE 0x0000u
#define AVAILABLE 0x0400u
#define USED 0x0800u
#define HEADERS 0x1000u
#define STATUS 0x1800u
#define DATA 0x10000u
#define QUEUE 32u
#define REQUESTS 8u
#define BLOCK 4096u
#define TURNS 50000u
#define BASE 0x80000000u

static uint8_t *ram, *disk;
static uint32_t sectors, taken, put;

static uint16_t half(uint32_t at)
{
    uint16_t v;
    memcpy(&v, ram + at, 2);
    return v;
}

static uint32_t word(uint32_t at)
{
    uint32_t v;
    memcpy(&v, ram + at, 4);
    return v;
}

static void set_half(uint32_t at, uint16_t v) { memcpy(ram + at, &v, 2); }

static void set_word(uint32_t at, uint32_t v) { memcpy(ram + at, &v, 4); }

static void descriptor(uint32_t at, uint32_t addr, uint32_t len, uint32_t flags, uint32_t next)
{
    set_word(at, BASE + addr);
    set_word(at + 8, len);
    set_word(at + 12, flags + 0x10000 * next);
}

static void prepare(void)
{
    for (uint32_t j = 0; j < REQUESTS; j++) {
        uint32_t writes = j % 2, at = TABLE + 48 * j;
        descriptor(at, HEADERS + 16 * j, 16, 1, 3 * j + 1);
        descriptor(at + 16, DATA + BLOCK * j, BLOCK, writes ? 1 : 3, 3 * j + 2);
        descriptor(at + 32, STATUS + 4 * j, 1, 2, 0);
        set_word(HEADERS + 16 * j, writes);
    }
    for (uint32_t i = 0; i < QUEUE; i++)
        set_half(AVAILABLE + 4 + 2 * i, 3 * (i % REQUESTS));
}

static int serve(uint32_t head)
{
    uint32_t at[3], len[3], flags, next = head;
    for (uint32_t k = 0; k < 3; k++) {
        if (next >= QUEUE)
            return 1;
        uint32_t d = TABLE + 16 * next;
        at[k] = word(d) - BASE;
        len[k] = word(d + 8);
        flags = half(d + 12);
        next = half(d + 14);
        if (word(d + 4) != 0 || at[k] > SIZE || len[k] > SIZE - at[k] || (flags & 4) != 0 || (flags & 1) != (k < 2))
            return 1;
    }
    uint32_t kind = word(at[0]), sector = word(at[0] + 8), count = len[1] / 512;
    if (word(at[0] + 12) != 0 || len[1] % 512 != 0 || count > sectors || sector > sectors - count)
        return 1;
    if (kind == 0)
        memcpy(ram + at[1], disk + 512 * sector, len[1]);
    else
        memcpy(disk + 512 * sector, ram + at[1], len[1]);
    ram[at[2]] = 0;
    set_word(USED + 4 + 8 * (put % QUEUE), head);
    set_word(USED + 8 + 8 * (put % QUEUE), kind == 0 ? len[1] + 1 : 0);
    put++;
    set_half(USED + 2, put);
    return 0;
}

int main(int argc, char **argv)
{
    sectors = argc > 1 ? atoi(argv[1]) : 64;
    ram = calloc(SIZE, 1);
    disk = calloc(sectors, 512);
    if (!ram || !disk)
        return 1;
    prepare();
    for (uint32_t turn = 0; turn < TURNS; turn++) {
        for (uint32_t j = 0; j < REQUESTS; j++)
            set_word(HEADERS + 16 * j + 8, 8 * ((turn + 3 * j) % 8));
        set_word(DATA + BLOCK, turn);
        set_half(AVAILABLE + 2, REQUESTS * (turn + 1));
        while ((uint16_t)taken != half(AVAILABLE + 2)) {
            if (serve(half(AVAILABLE + 4 + 2 * (taken % QUEUE))) != 0)
                return 1;
            taken++;
        }
    }
    uint32_t sum = half(USED + 2);
    for (uint32_t j = 0; j < REQUESTS; j++)
        sum = 31 * sum + word(DATA + BLOCK * j);
    printf("%u\n", sum);
    return 0;
}
