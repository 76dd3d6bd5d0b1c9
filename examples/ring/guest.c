/* One of eight guests in a ring, round which a token is passed. Nic 0 leads to the next guest, and nic 1 to the one before. Which of the eight
   it is the guest learns from the MAC address of its nics, so that all have one image. */
#include "clint.h"
#include "console.h"
#include "net.h"

enum { LAPS = 3, GUEST_NUMBER = 4 };

struct token {
    struct ethernet head;
    uint16_t reserved;
    uint32_t hops;
};

static struct net next, before;

static void pass_on(uint32_t hops)
{
    struct token token;
    net_head(&next, &token.head);
    token.reserved = 0;
    token.hops = hops;
    net_send(&next, &token, sizeof token);
}

static uint32_t await_token(void)
{
    struct token token;
    while (!net_receive(&before, &token, sizeof token))
        wait_for_device();
    return token.hops;
}

static void tell(uint32_t lap, uint32_t hops, uint32_t tick)
{
    say("lap ");
    say_number(lap);
    say(": hop ");
    say_number(hops);
    say(" in tick ");
    say_number(tick);
    say("\n");
}

static const char *start(void)
{
    const char *fault = net_start(&next, 0, BY_INTERRUPT);
    return fault ? fault : net_start(&before, 1, BY_INTERRUPT);
}

/* The first guest sends the token, and keeps it after the last lap. */
int main(void)
{
    const char *fault = start();
    if (fault) {
        say(fault);
        say("\n");
        return 1;
    }
    int is_first = next.address[GUEST_NUMBER] == 0;
    if (is_first)
        pass_on(1);
    for (uint32_t lap = 1; lap <= LAPS; lap++) {
        uint32_t hops = await_token();
        uint32_t tick = (uint32_t)clock_now();
        if (!is_first || lap < LAPS)
            pass_on(hops + 1);
        tell(lap, hops, tick);
    }
    return 0;
}
