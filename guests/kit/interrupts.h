/* Interrupts and exceptions (privileged manual, "Machine Interrupt Registers" and "mcause"), and waits for them.

   A guest may wait for an interrupt without taking it: nothing ever comes between its instructions, and `wait_for` is all it needs. Or it has handlers:
   it defines those of the functions below that it wants, enables their interrupts, and takes them from `interrupts_take` on. */
#ifndef INTERRUPTS_H
#define INTERRUPTS_H

#include <stdint.h>

#include "machine.h"

/* Bits of mie and mip. */
enum { SOFTWARE_INTERRUPT = 1 << 3, TIMER_INTERRUPT = 1 << 7, EXTERNAL_INTERRUPT = 1 << 11 };

/* The bit MIE of mstatus. */
enum { TAKES_INTERRUPTS = 1 << 3 };

static inline void interrupts_enable(uint32_t which)
{
    csr_set(mie, which);
}

static inline void interrupts_disable(uint32_t which)
{
    csr_clear(mie, which);
}

/* Those that are enabled are taken from now on. */
static inline void interrupts_take(void)
{
    csr_set(mstatus, TAKES_INTERRUPTS);
}

/* They are held back from now on. Answers what `interrupts_as_before` wants. */
static inline uint32_t interrupts_hold(void)
{
    return csr_clear(mstatus, TAKES_INTERRUPTS) & TAKES_INTERRUPTS;
}

static inline void interrupts_as_before(uint32_t held)
{
    csr_set(mstatus, held);
}

/* Whether these are enabled, and taken. */
static inline int interrupts_are_taken(uint32_t which)
{
    return (csr_read(mstatus) & TAKES_INTERRUPTS) && (csr_read(mie) & which) == which;
}

/* Sleeps until one that is enabled is up. A guest with handlers holds interrupts back, looks whether it has to sleep at all, and sleeps so: one that
   comes after the look wakes it, and is taken when it lets go of them. */
static inline void sleep_until_enabled(void)
{
    __asm__ volatile("wfi" ::: "memory");
}

/* Sleeps until one of these is up, whatever is enabled, and takes none. */
void wait_for(uint32_t which);

/* Sleeps until this time. Uses the alarm, and leaves it off. */
void wait_until(uint64_t time);

/* Handlers, each of which the guest may define. Where it does not, the trap is told on the UART, and the power is turned off. */

void on_software(void);

void on_timer(void);

/* Bit i of `lines` says that the line of virtio slot i was up. It is acknowledged already, so all that this device has given back is taken now. */
void on_external(uint32_t lines);

/* Answers the address at which to go on. */
uint32_t on_exception(uint32_t cause, uint32_t address, uint32_t value);

#endif
