/* Writes 10^7 instr lines into memory, in the way a C program would. */
#include <stdio.h>

int main(void)
{
    static char text[64 * 10000];
    unsigned long total = 0;
    for (unsigned long tick = 0; tick < 1000; tick++) {
        size_t len = 0;
        for (unsigned int k = 0; k < 10000; k++)
            len += snprintf(text + len, sizeof text - len, "%lu %u instr %08x %08x\n", tick, 0u, 0x80000000u + k, 0x0000006fu);
        total += len;
    }
    printf("%lu\n", total);
    return 0;
}
