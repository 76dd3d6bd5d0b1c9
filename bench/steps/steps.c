/* Prints the journal of one guest that runs the program of loop.sh, in the way a C interpreter would. */
#include <stdio.h>
#include <stdlib.h>
#include "../interp.h"

int main(int argc, char **argv)
{
    static const uint32_t program[] = {PROGRAM};
    struct hart hart = {.pc = BASE};
    struct bus bus = {.size = SIZE};
    uint32_t pc = 0, word = 0;
    if (argc != 3)
        return 1;
    unsigned long host_ticks = strtoul(argv[1], NULL, 10);
    unsigned long rate = strtoul(argv[2], NULL, 10);
    bus.bytes = calloc(SIZE, 1);
    if (!bus.bytes)
        return 1;
    memcpy(bus.bytes, program, sizeof program);
    printf("diecast 1 factor 1 slots 1 guests 1 host %lu\n", host_ticks);
    for (unsigned long t = 1; t <= host_ticks; t++) {
        printf("host %lu\nslot 0\nrun 0 units %lu done %lu\n", t, rate, t);
        for (unsigned long k = 0; k < rate; k++) {
            if (step(&hart, &bus, &pc, &word) != RETIRED)
                return 1;
            printf("%lu 0 instr %08x %08x\n", t - 1, pc, word);
        }
    }
    printf("end %lu\n", host_ticks);
    return 0;
}
