/* One of 32 guests, each of which knows a number at first, its own, and tells its neighbours all that it knows whenever it has learnt something.
   It ends when it knows all 32 and has told so. All have one image: the MAC address says which guest it is. */
#include "clint.h"
#include "console.h"
#include "net.h"

enum { NICS = 4, GUEST_NUMBER = 4 };

#define ALL 0xffffffffu

struct message {
    struct ethernet head;
    uint16_t reserved;
    /* bit i: number i is known */
    uint32_t known;
};

static struct net nics[NICS];
static uint32_t known, heard;

static void tell_neighbours(void)
{
    struct message message = { .known = known };
    for (int nic = 0; nic < NICS; nic++) {
        net_head(&nics[nic], &message.head);
        net_send(&nics[nic], &message, sizeof message);
    }
}

static void listen(void)
{
    struct message message;
    for (int nic = 0; nic < NICS; nic++)
        while (net_receive(&nics[nic], &message, sizeof message)) {
            known |= message.known;
            heard++;
        }
}

static const char *start(void)
{
    for (int nic = 0; nic < NICS; nic++) {
        const char *fault = net_start(&nics[nic], nic, BY_INTERRUPT);
        if (fault)
            return fault;
    }
    return 0;
}

int main(void)
{
    const char *fault = start();
    if (fault) {
        say(fault);
        say("\n");
        return 1;
    }
    known = 1u << nics[0].address[GUEST_NUMBER];
    tell_neighbours();
    uint32_t tick = 0;
    while (known != ALL) {
        wait_for_device();
        tick = (uint32_t)clock_now();
        uint32_t before = known;
        listen();
        if (known != before)
            tell_neighbours();
    }
    say("knows all in tick ");
    say_number(tick);
    say(", after ");
    say_number(heard);
    say(" messages\n");
    return 0;
}
