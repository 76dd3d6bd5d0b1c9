/* A trap for which the guest has no handler: the kit tells it, and turns the power off. */
#include "console.h"
#include "machine.h"

/* Nothing stands there. It is loaded, so that the compiler does not see what comes of it. */
static volatile uintptr_t nowhere = 0x50;

int main(void)
{
    say("a store to 0x50 comes next\n");
    store_word(nowhere, 1);
    say("nothing comes here\n");
    return 0;
}
