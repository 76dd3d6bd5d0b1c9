/* Reads all 4096 control and status registers, each by an instruction that it writes into RAM, and tells those that are there. */
#include "console.h"
#include "interrupts.h"

enum { ILLEGAL_INSTRUCTION = 2 };

/* Numbers of registers: the first of the counters, and those that say where traps go and where the last one came from. */
enum { COUNTERS = 0xc00, MTVEC = 0x305, MEPC = 0x341, MTVAL = 0x343 };

static volatile uint32_t seen_cause;

uint32_t on_exception(uint32_t cause, uint32_t address, uint32_t value)
{
    (void)value;
    seen_cause = cause;
    return address + 4;
}

/* csrr a0, NUMBER; ret */
static uint32_t read_register(uint32_t number)
{
    static uint32_t code[2];
    code[0] = number << 20 | 0x00002573;
    code[1] = 0x00008067;
    __asm__ volatile(".word 0x0000100f" ::: "memory"); /* fence.i */
    return ((uint32_t (*)(void))code)();
}

/* Whether the value has to do with time, or with where the program stands. */
static int is_of_this_run(uint32_t number)
{
    return (number & 0xf00) == COUNTERS || number == MTVEC || (number >= MEPC && number <= MTVAL);
}

/* A value of this run is shown as 0. */
int main(void)
{
    for (uint32_t number = 0; number < 4096; number++) {
        seen_cause = 0;
        uint32_t value = read_register(number);
        if (seen_cause == ILLEGAL_INSTRUCTION)
            continue;
        say_hex(number);
        say(" ");
        say_hex(is_of_this_run(number) ? 0 : value);
        say("\n");
    }
    return 0;
}
