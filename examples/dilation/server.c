/* Sends probes back, and answers data. It never ends. */
#include "console.h"
#include "message.h"

static struct net nic;
static struct message message;

static void answer(void)
{
    net_head(&nic, &message.head);
    if (message.kind == DATA)
        message.kind = GOT;
    net_send(&nic, &message, SHORT_FRAME);
}

int main(void)
{
    const char *fault = net_start(&nic, 0, BY_INTERRUPT);
    if (fault) {
        say(fault);
        say("\n");
        return 1;
    }
    for (;;) {
        if (net_receive(&nic, &message, sizeof message))
            answer();
        else
            wait_for_device();
    }
}
