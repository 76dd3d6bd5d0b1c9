/* Runs the program of loop.sh and only counts, and prints the summary of it, in the way a C interpreter would. */
#include <stdio.h>
#include <stdlib.h>
#include "../interp.h"

int main(int argc, char **argv)
{
    static const uint32_t program[] = {PROGRAM};
    struct hart hart = {.pc = BASE};
    struct bus bus = {.size = SIZE};
    uint32_t pc = 0, word = 0;
    unsigned long instr = 0, trap = 0;
    if (argc != 3)
        return 1;
    unsigned long host_ticks = strtoul(argv[1], NULL, 10);
    unsigned long rate = strtoul(argv[2], NULL, 10);
    bus.bytes = calloc(SIZE, 1);
    if (!bus.bytes)
        return 1;
    memcpy(bus.bytes, program, sizeof program);
    for (unsigned long t = 1; t <= host_ticks; t++) {
        for (unsigned long k = 0; k < rate; k++) {
            switch (step(&hart, &bus, &pc, &word)) {
            case RETIRED: instr++; break;
            case TRAPPED: trap++; break;
            default: break;
            }
        }
    }
    printf("summary guests 1 ticks %lu\n0 a instr %lu trap %lu disk 0 sent 0 drop 0 bad 0 recv 0 lost 0 uart 0 broken 0 halt 0\nend\n", host_ticks, instr, trap);
    return 0;
}
