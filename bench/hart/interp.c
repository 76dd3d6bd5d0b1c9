/* Runs the program of loop.sh for 10^8 steps and prints what came out. */
#include <stdio.h>
#include <stdlib.h>
#include "../interp.h"

#define STEPS 100000000ul

int main(void)
{
    static const uint32_t program[] = {PROGRAM};
    struct hart hart = {.pc = BASE};
    struct bus bus = {.size = SIZE};
    uint64_t retired = 0;
    uint32_t pc = 0, word = 0, mixed = 0;
    bus.bytes = calloc(SIZE, 1);
    if (!bus.bytes)
        return 1;
    memcpy(bus.bytes, program, sizeof program);
    for (unsigned long turn = 0; turn < STEPS; turn++) {
        if (step(&hart, &bus, &pc, &word) == RETIRED) {
            retired++;
            mixed = mixed * 31 + pc + word;
        }
    }
    printf("%llu %u %u %u %u\n", (unsigned long long)retired, mixed, hart.regs[5], hart.regs[6], hart.regs[7]);
    return 0;
}
