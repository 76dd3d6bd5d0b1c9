/* Sends frames of all lengths at all times by all the nics that it has, sleeps in between, takes what comes in or leaves it for later, and tells a sum
   of it at the end. What it does follows from the MAC address of its first nic. It is run in experiments that are made at random. */
#include "clint.h"
#include "console.h"
#include "interrupts.h"
#include "net.h"

enum { NICS = 4, TURNS = 24, BURST = 6, LONGEST_SLEEP = 12 };

static struct net nics[NICS];
static int count;
static uint32_t seed, frames, sum;
static uint32_t frame[(NET_MOST + 3) / 4];

/* A number below a limit, by the generator of Numerical Recipes. */
static uint32_t below(uint32_t limit)
{
    seed = seed * 1664525u + 1013904223u;
    return (seed >> 8) % limit;
}

/* Short frames are as likely as all others together. */
static uint32_t some_length(void)
{
    return NET_LEAST + below(below(2) ? 50 : NET_MOST - NET_LEAST + 1);
}

static void send_some(void)
{
    struct net *nic = &nics[below((uint32_t)count)];
    for (uint32_t left = below(BURST) + 1; left; left--) {
        net_head(nic, (struct ethernet *)frame);
        frame[4] = seed;
        net_send(nic, frame, some_length());
    }
}

static void receive_all(void)
{
    for (int nic = 0; nic < count; nic++)
        for (uint32_t length; (length = net_receive(&nics[nic], frame, sizeof frame)) != 0; frames++)
            sum = sum * 31 + length + (length >= 20 ? frame[4] : 0);
}

/* Until something comes or some time has passed, or through all that comes. */
static void sleep(void)
{
    uint64_t until = clock_now() + below(LONGEST_SLEEP) + 1;
    if (below(3))
        wait_for_device_until(until);
    else
        wait_until(until);
}

int main(void)
{
    while (count < NICS && !net_start(&nics[count], count, BY_INTERRUPT))
        count++;
    seed = nics[0].address[4] * 7919u + 1;
    for (int turn = 0; turn < TURNS; turn++) {
        if (below(2))
            send_some();
        if (below(4))
            receive_all();
        sleep();
    }
    receive_all();
    say_number(frames);
    say(" frames, sum ");
    say_hex(sum);
    say("\n");
    return 0;
}
