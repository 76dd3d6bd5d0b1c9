/* What picolibc asks of a guest: a stream that prints on the UART, memory for malloc, and an end. */
#include <stddef.h>
#include <stdio.h>

#include "console.h"
#include "power.h"

enum { HEAP_BYTES = 65536 };

static char heap[HEAP_BYTES] __attribute__((aligned(16)));
static char *heap_end = heap;

void *sbrk(ptrdiff_t more)
{
    if (more > heap + HEAP_BYTES - heap_end)
        return (void *)-1;
    char *before = heap_end;
    heap_end += more;
    return before;
}

static int put(char byte, FILE *stream)
{
    (void)stream;
    say_byte(byte);
    return (unsigned char)byte;
}

static FILE uart = FDEV_SETUP_STREAM(put, NULL, NULL, _FDEV_SETUP_WRITE);
FILE *const stdout = &uart;
FILE *const stderr = &uart;
FILE *const stdin = &uart;

/* The power register takes no status. */
void _exit(int status)
{
    (void)status;
    power_off();
}
