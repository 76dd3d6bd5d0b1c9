/* The interrupt lines of the devices behind virtio, at 0x0300_0000: bit i is that of virtio slot i, and while one is up the external interrupt is. */
#ifndef LINES_H
#define LINES_H

#include <stdint.h>

/* Acknowledges the interrupts of all devices whose lines are up (virtio 1.2, section 4.2.3.4.2), and answers which these were. Whoever does so looks
   at the queues afterwards: what comes later raises the line again. */
uint32_t lines_acknowledge(void);

#endif
