/* The nic of run.sh in C: frames go out of RAM through one ring, wait in the heap, and go back into RAM through another. */
#include <stdint.h>
#include <stdio.h>
#include <stdlib.h>
#include <string.h>

#define SIZE 65536u
#define SENT 0x0000u
#define RECEIVED 0x1000u
#define SENT_DATA 0x4000u
#define RECEIVED_DATA 0xa000u
#define ROOM 2048u
#define QUEUE 8u
#define TURNS 100000u
#define BASE 0x80000000u

struct frame { uint32_t len; uint8_t *bytes; };

static uint8_t *ram;
static struct frame frames[QUEUE];
static uint32_t waiting, sent, received;

static uint16_t half(uint32_t at)
{
    uint16_t v;
    memcpy(&v, ram + at, 2);
    return v;
}

static uint32_t word(uint32_t at)
{
    uint32_t v;
    memcpy(&v, ram + at, 4);
    return v;
}

static void set_half(uint32_t at, uint16_t v) { memcpy(ram + at, &v, 2); }

static void set_word(uint32_t at, uint32_t v) { memcpy(ram + at, &v, 4); }

/* A queue has its table, its available ring at 0x400 and its used ring at 0x800. */
static void prepare(uint32_t queue, uint32_t data, uint32_t len, uint32_t flags)
{
    for (uint32_t j = 0; j < QUEUE; j++) {
        set_word(queue + 16 * j, BASE + data + ROOM * j);
        set_word(queue + 16 * j + 8, len);
        set_word(queue + 16 * j + 12, flags);
        set_half(queue + 0x404 + 2 * j, j);
    }
}

/* The buffer of the next head, none where the ring has no more. */
static uint8_t *taken(uint32_t queue, uint32_t count, uint32_t flags, uint32_t *head, uint32_t *len)
{
    if ((uint16_t)count == half(queue + 0x402))
        return 0;
    *head = half(queue + 0x404 + 2 * (count % QUEUE));
    if (*head >= QUEUE)
        exit(1);
    uint32_t d = queue + 16 * *head, at = word(d) - BASE;
    *len = word(d + 8);
    if (word(d + 4) != 0 || at > SIZE || *len > SIZE - at || half(d + 12) != flags)
        exit(1);
    return ram + at;
}

static void put(uint32_t queue, uint32_t count, uint32_t head, uint32_t len)
{
    set_word(queue + 0x804 + 8 * (count % QUEUE), head);
    set_word(queue + 0x808 + 8 * (count % QUEUE), len);
    set_half(queue + 0x802, count + 1);
}

static void begin(void)
{
    for (uint32_t i = 0; i < waiting; i++) {
        uint32_t head, room;
        uint8_t *to = taken(RECEIVED, received, 2, &head, &room);
        if (!to || room < 12 + frames[i].len)
            exit(1);
        memset(to, 0, 12);
        to[10] = 1;
        memcpy(to + 12, frames[i].bytes, frames[i].len);
        free(frames[i].bytes);
        put(RECEIVED, received, head, 12 + frames[i].len);
        received++;
    }
    waiting = 0;
}

static void end(void)
{
    uint32_t head, len;
    uint8_t *from;
    while ((from = taken(SENT, sent, 0, &head, &len))) {
        if (len < 26 || len > 1526)
            exit(1);
        struct frame *f = &frames[waiting++];
        f->len = len - 12;
        if (!(f->bytes = malloc(f->len)))
            exit(1);
        memcpy(f->bytes, from + 12, f->len);
        put(SENT, sent, head, 0);
        sent++;
    }
}

int main(int argc, char **argv)
{
    uint32_t len = argc > 1 ? atoi(argv[1]) : 64;
    if (!(ram = calloc(SIZE, 1)))
        return 1;
    prepare(SENT, SENT_DATA, 12 + len, 0);
    prepare(RECEIVED, RECEIVED_DATA, 1526, 2);
    for (uint32_t turn = 0; turn < TURNS; turn++) {
        begin();
        for (uint32_t j = 0; j < QUEUE; j++)
            set_word(SENT_DATA + 12 + ROOM * j, turn + j);
        set_half(SENT + 0x402, QUEUE * (turn + 1));
        set_half(RECEIVED + 0x402, QUEUE * (turn + 1));
        end();
    }
    uint32_t sum = half(SENT + 0x802) + half(RECEIVED + 0x802);
    for (uint32_t j = 0; j < QUEUE; j++)
        sum = 31 * sum + word(RECEIVED_DATA + 12 + ROOM * j);
    printf("%u\n", sum);
    return 0;
}
