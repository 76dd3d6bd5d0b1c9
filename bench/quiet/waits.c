/* Prints the journal of one guest of rate 1 that runs PROGRAM, a word a tick, and then waits. */
#include <stdio.h>
#include <stdlib.h>

int main(int argc, char **argv)
{
    static const unsigned int program[] = {PROGRAM};
    const unsigned long words = sizeof program / sizeof *program;
    if (argc != 2)
        return 1;
    unsigned long host_ticks = strtoul(argv[1], NULL, 10);
    printf("diecast 1 factor 1 slots 1 guests 1 host %lu\n", host_ticks);
    for (unsigned long t = 1; t <= host_ticks; t++) {
        printf("host %lu\nslot 0\nrun 0 units 1 done %lu\n", t, t);
        if (t <= words)
            printf("%lu 0 instr %08lx %08x\n", t - 1, 0x80000000ul + 4 * (t - 1), program[t - 1]);
    }
    printf("end %lu\n", host_ticks);
    return 0;
}
