/* Text on the UART, at 0x1000_0000, which has the two registers of an NS16550 that sending needs. */
#ifndef CONSOLE_H
#define CONSOLE_H

#include <stdint.h>

void say_byte(char byte);
void say(const char *text);

/* In decimal. */
void say_number(uint32_t number);

/* In eight hex digits. */
void say_hex(uint32_t number);

#endif
