#include "clint.h"
#include "machine.h"

enum { SOFTWARE = 0, COMPARE_LOW = 0x4000, COMPARE_HIGH = 0x4004, TIME_LOW = 0xbff8, TIME_HIGH = 0xbffc };

/* The high half is loaded twice: the low one may have run over between them. */
uint64_t clock_now(void)
{
    uint32_t high, low;
    do {
        high = load_word(CLINT + TIME_HIGH);
        low = load_word(CLINT + TIME_LOW);
    } while (load_word(CLINT + TIME_HIGH) != high);
    return (uint64_t)high << 32 | low;
}

/* In three steps, so that between two of them the alarm is at no time before this one. */
void alarm_at(uint64_t time)
{
    store_word(CLINT + COMPARE_HIGH, 0xffffffff);
    store_word(CLINT + COMPARE_LOW, (uint32_t)time);
    store_word(CLINT + COMPARE_HIGH, (uint32_t)(time >> 32));
}

void alarm_off(void)
{
    alarm_at(UINT64_MAX);
}

void software_interrupt_up(void)
{
    store_word(CLINT + SOFTWARE, 1);
}

void software_interrupt_down(void)
{
    store_word(CLINT + SOFTWARE, 0);
}
