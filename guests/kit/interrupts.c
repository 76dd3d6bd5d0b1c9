#include "interrupts.h"

#include "clint.h"
#include "console.h"
#include "lines.h"
#include "power.h"

/* Values of mcause. */
#define SOFTWARE_CAUSE 0x80000003u
#define TIMER_CAUSE 0x80000007u
#define EXTERNAL_CAUSE 0x8000000bu

/* WFI goes on for what mie enables, whatever mstatus says of taking it, and it may go on for nothing: so what is up is looked at. */
void wait_for(uint32_t which)
{
    uint32_t held = interrupts_hold();
    uint32_t enabled = csr_read(mie);
    csr_write(mie, which);
    while (!(csr_read(mip) & which))
        sleep_until_enabled();
    csr_write(mie, enabled);
    interrupts_as_before(held);
}

void wait_until(uint64_t time)
{
    uint32_t held = interrupts_hold();
    alarm_at(time);
    wait_for(TIMER_INTERRUPT);
    alarm_off();
    interrupts_as_before(held);
}

static void __attribute__((noreturn)) unexpected(uint32_t cause, uint32_t address, uint32_t value)
{
    say("trap ");
    say_hex(cause);
    say(" at ");
    say_hex(address);
    say(" value ");
    say_hex(value);
    say("\n");
    power_off();
}

void __attribute__((weak)) on_software(void)
{
    unexpected(SOFTWARE_CAUSE, csr_read(mepc), 0);
}

void __attribute__((weak)) on_timer(void)
{
    unexpected(TIMER_CAUSE, csr_read(mepc), 0);
}

void __attribute__((weak)) on_external(uint32_t lines)
{
    unexpected(EXTERNAL_CAUSE, csr_read(mepc), lines);
}

uint32_t __attribute__((weak)) on_exception(uint32_t cause, uint32_t address, uint32_t value)
{
    unexpected(cause, address, value);
}

/* start.S calls this, and goes on at the address that it answers. */
uint32_t trap(uint32_t cause, uint32_t address, uint32_t value)
{
    switch (cause) {
    case SOFTWARE_CAUSE:
        on_software();
        return address;
    case TIMER_CAUSE:
        on_timer();
        return address;
    case EXTERNAL_CAUSE:
        on_external(lines_acknowledge());
        return address;
    default:
        return on_exception(cause, address, value);
    }
}
