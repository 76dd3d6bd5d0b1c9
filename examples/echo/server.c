/* Sends all that it gets back to where it came from, and tells its number. It never ends. */
#include "console.h"
#include "memory.h"
#include "message.h"

static struct net nic;
static struct message message;

static void answer(uint32_t length)
{
    memcpy(message.head.to, message.head.from, sizeof message.head.to);
    memcpy(message.head.from, nic.address, sizeof message.head.from);
    net_send(&nic, &message, length);
    say("answered ");
    say_number(message.number);
    say("\n");
}

int main(void)
{
    const char *fault = net_start(&nic, 0, BY_INTERRUPT);
    if (fault) {
        say(fault);
        say("\n");
        return 1;
    }
    for (;;) {
        uint32_t length = net_receive(&nic, &message, sizeof message);
        if (length)
            answer(length);
        else
            wait_for_device();
    }
}
