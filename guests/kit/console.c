#include "console.h"
#include "machine.h"

/* The transmitter holding register and the line status register of an NS16550, and its bit "the transmitter holding register is empty". */
enum { TRANSMIT = 0, LINE_STATUS = 5, HAS_ROOM = 0x20 };

void say_byte(char byte)
{
    while (!(load_byte(UART + LINE_STATUS) & HAS_ROOM))
        ;
    store_byte(UART + TRANSMIT, (uint8_t)byte);
}

void say(const char *text)
{
    for (; *text; text++)
        say_byte(*text);
}

void say_number(uint32_t number)
{
    if (number >= 10)
        say_number(number / 10);
    say_byte((char)('0' + number % 10));
}

void say_hex(uint32_t number)
{
    for (int shift = 28; shift >= 0; shift -= 4)
        say_byte("0123456789abcdef"[number >> shift & 15]);
}
