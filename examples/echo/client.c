/* Sends numbered requests, each longer than the one before, and tells how many ticks passed until its answer was there. */
#include "clint.h"
#include "console.h"
#include "interrupts.h"
#include "message.h"

enum { REQUESTS = 8, FIRST_BYTES = 64, MORE_BYTES = 100 };

static struct net nic;
static struct message request, answer;

static uint32_t await_answer(void)
{
    for (;;) {
        uint32_t length = net_receive(&nic, &answer, sizeof answer);
        if (length)
            return length;
        wait_for_device();
    }
}

/* It begins with a tick, so that the request is sent in the tick that it is measured from. */
static uint32_t round_trip(uint32_t number, uint32_t bytes)
{
    net_head(&nic, &request.head);
    request.number = number;
    wait_until(clock_now() + 1);
    uint64_t start = clock_now();
    net_send(&nic, &request, bytes);
    while (await_answer() != bytes || answer.number != number)
        ;
    return (uint32_t)(clock_now() - start);
}

int main(void)
{
    const char *fault = net_start(&nic, 0, BY_INTERRUPT);
    if (fault) {
        say(fault);
        say("\n");
        return 1;
    }
    for (uint32_t number = 0; number < REQUESTS; number++) {
        uint32_t bytes = FIRST_BYTES + number * MORE_BYTES;
        uint32_t ticks = round_trip(number, bytes);
        say("request ");
        say_number(number);
        say(" of ");
        say_number(bytes);
        say(" bytes: ");
        say_number(ticks);
        say(" ticks\n");
    }
    return 0;
}
