/* The power register, at 0x0010_0000: the word 0x5555 halts the machine for good, and ends qemu. It takes no exit status. */
#ifndef POWER_H
#define POWER_H

/* It stands in start.S, which turns the power off when `main` is done, too. */
void power_off(void) __attribute__((noreturn));

#endif
