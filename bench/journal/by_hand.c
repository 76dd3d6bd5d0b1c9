/* Prints the journal of one guest that jumps in place, formatted by hand into a buffer of 64 KiB, in the way a C
   program would that is to be fast: digits one by one, and a write when the buffer is nearly full. */
#include <stdint.h>
#include <stdlib.h>
#include <string.h>
#include <unistd.h>

#define SIZE 65536

static char buffer[SIZE];
static size_t used;

static void hand_on(void)
{
    size_t done = 0;
    while (done < used) {
        ssize_t n = write(1, buffer + done, used - done);
        if (n <= 0)
            exit(1);
        done += (size_t)n;
    }
    used = 0;
}

static void word(const char *text, size_t len)
{
    memcpy(buffer + used, text, len);
    used += len;
}

static void decimal(unsigned long n)
{
    char digits[20];
    size_t at = sizeof digits;
    do {
        digits[--at] = (char)('0' + n % 10);
        n /= 10;
    } while (n != 0);
    word(digits + at, sizeof digits - at);
}

static void hex(uint32_t n)
{
    for (int shift = 28; shift >= 0; shift -= 4)
        buffer[used++] = "0123456789abcdef"[n >> shift & 15];
}

#define WORD(text) word(text, sizeof text - 1)

static void line_end(void)
{
    buffer[used++] = '\n';
    if (used > SIZE - 128)
        hand_on();
}

int main(int argc, char **argv)
{
    if (argc != 3)
        return 1;
    unsigned long host_ticks = strtoul(argv[1], NULL, 10);
    unsigned long rate = strtoul(argv[2], NULL, 10);
    volatile uint32_t pc = 0x80000000u, instruction = 0x0000006fu;
    WORD("diecast 1 factor 1 slots 1 guests 1 host "), decimal(host_ticks), line_end();
    for (unsigned long t = 1; t <= host_ticks; t++) {
        WORD("host "), decimal(t), line_end();
        WORD("slot 0"), line_end();
        WORD("run 0 units "), decimal(rate), WORD(" done "), decimal(t), line_end();
        for (unsigned long k = 0; k < rate; k++) {
            decimal(t - 1), WORD(" 0 instr "), hex(pc), WORD(" "), hex(instruction), line_end();
        }
    }
    WORD("end "), decimal(host_ticks), line_end();
    hand_on();
    return 0;
}
