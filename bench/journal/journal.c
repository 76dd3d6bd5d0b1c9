/* Prints the journal of one guest that jumps in place, in the way a C program would. */
#include <stdio.h>
#include <stdlib.h>

int main(int argc, char **argv)
{
    unsigned long host_ticks = strtoul(argv[1], NULL, 10);
    unsigned long rate = strtoul(argv[2], NULL, 10);
    unsigned int pc = 0x80000000u, word = 0x0000006fu;
    if (argc != 3)
        return 1;
    printf("diecast 1 factor 1 slots 1 guests 1 host %lu\n", host_ticks);
    for (unsigned long t = 1; t <= host_ticks; t++) {
        printf("host %lu\nslot 0\nrun 0 units %lu done %lu\n", t, rate, t);
        for (unsigned long k = 0; k < rate; k++)
            printf("%lu 0 instr %08x %08x\n", t - 1, pc, word);
    }
    printf("end %lu\n", host_ticks);
    return 0;
}
