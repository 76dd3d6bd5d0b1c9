/* Sends a line by the UART. */
#include "console.h"

int main(void)
{
    say("hello, world\n");
    return 0;
}
