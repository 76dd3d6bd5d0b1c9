/* The CLINT, at 0x0200_0000: the time, the timer's interrupt and the software interrupt (privileged manual, "Machine Timer (mtime and
   mtimecmp) Registers"). The time is the virtual tick. */
#ifndef CLINT_H
#define CLINT_H

#include <stdint.h>

uint64_t clock_now(void);

/* The timer's interrupt is up from this time on, until the alarm is set again. */
void alarm_at(uint64_t time);

/* The timer's interrupt stays down. */
void alarm_off(void);

/* The software interrupt is up from now on, or down. */
void software_interrupt_up(void);
void software_interrupt_down(void);

#endif
