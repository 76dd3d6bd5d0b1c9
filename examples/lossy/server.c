/* Does the jobs that come in, one after the other, and sends the answer back, which the link may drop. It never ends. */
#include "console.h"
#include "message.h"

static struct net nic;
static struct message message;

/* How many steps the number takes to 1, where an even one is halved, and of an odd one three times it and one is taken. */
static uint32_t steps_to_one(uint32_t number)
{
    uint32_t steps = 0;
    for (; number != 1; steps++)
        number = number % 2 ? 3 * number + 1 : number / 2;
    return steps;
}

int main(void)
{
    const char *fault = net_start(&nic, 0, BY_INTERRUPT);
    if (fault) {
        say(fault);
        say("\n");
        return 1;
    }
    for (;;) {
        if (!net_receive(&nic, &message, sizeof message)) {
            wait_for_device();
            continue;
        }
        net_head(&nic, &message.head);
        message.answer = steps_to_one(message.job + 1);
        net_send(&nic, &message, ANSWER_BYTES);
    }
}
