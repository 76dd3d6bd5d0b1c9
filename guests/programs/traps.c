/* Takes every kind of exception, steps over what it came of, and tells what it was. */
#include "console.h"
#include "interrupts.h"

static volatile uint32_t seen_cause, seen_value;

uint32_t on_exception(uint32_t cause, uint32_t address, uint32_t value)
{
    seen_cause = cause;
    seen_value = value;
    return address + 4;
}

static void tell(const char *what)
{
    say(what);
    say(": cause ");
    say_number(seen_cause);
    say(" value ");
    say_hex(seen_value);
    say("\n");
    seen_cause = 99;
    seen_value = 0;
}

static void illegal_instructions(void)
{
    uint32_t kept = 7;
    __asm__ volatile(".word 0");
    tell("a word of zeros");
    __asm__ volatile(".word 0xffffffff");
    tell("a word of ones");
    __asm__ volatile("csrw mvendorid, %0" :: "r"(1));
    tell("a store to mvendorid");
    __asm__ volatile("csrr %0, 0x7ff" : "+r"(kept));
    tell("a load of CSR 0x7ff");
    say(kept == 7 ? "its register is as it was\n" : "its register has changed\n");
}

static void accesses(void)
{
    uint32_t kept = 7;
    __asm__ volatile("lw %0, 0(%1)" : "+r"(kept) : "r"(0));
    tell("a load from 0");
    say(kept == 7 ? "its register is as it was\n" : "its register has changed\n");
    __asm__ volatile("sw %0, 0(%1)" :: "r"(1), "r"(0x40));
    tell("a store to 0x40");
}

int main(void)
{
    seen_cause = 99;
    __asm__ volatile("ecall");
    tell("ecall");
    __asm__ volatile("ebreak");
    tell("ebreak");
    illegal_instructions();
    accesses();
    __asm__ volatile("fence rw, rw");
    tell("a fence (99: no trap)");
    return 0;
}
