/* Measures its link by its own clock: the round trip of a short frame, and how many bytes a tick get through, with so many frames at most
   that were not answered yet. */
#include "clint.h"
#include "console.h"
#include "interrupts.h"
#include "message.h"

enum { PROBES = 2, FRAMES = 8, WINDOW = 4 };

static struct net nic;
static struct message message, answer;

static void send(enum kind kind, uint32_t number, uint32_t length)
{
    net_head(&nic, &message.head);
    message.kind = (uint16_t)kind;
    message.number = number;
    net_send(&nic, &message, length);
}

static void await(enum kind kind)
{
    for (;;) {
        if (!net_receive(&nic, &answer, sizeof answer))
            wait_for_device();
        else if (answer.kind == kind)
            return;
    }
}

/* The least of some probes. Each begins with a tick. */
static uint32_t round_trip(void)
{
    uint32_t least = UINT32_MAX;
    for (uint32_t number = 0; number < PROBES; number++) {
        wait_until(clock_now() + 1);
        uint64_t start = clock_now();
        send(PROBE, number, SHORT_FRAME);
        await(PROBE);
        uint32_t ticks = (uint32_t)(clock_now() - start);
        if (ticks < least)
            least = ticks;
    }
    return least;
}

/* From the first frame that is sent to the last that is answered. */
static uint32_t transfer(void)
{
    wait_until(clock_now() + 1);
    uint64_t start = clock_now();
    uint32_t sent = 0;
    for (uint32_t answered = 0; answered < FRAMES; answered++) {
        while (sent < FRAMES && sent < answered + WINDOW)
            send(DATA, sent++, LONG_FRAME);
        await(GOT);
    }
    return (uint32_t)(clock_now() - start);
}

int main(void)
{
    const char *fault = net_start(&nic, 0, BY_INTERRUPT);
    if (fault) {
        say(fault);
        say("\n");
        return 1;
    }
    say("round trip: ");
    say_number(round_trip());
    say(" ticks\n");
    uint32_t ticks = transfer();
    say_number(FRAMES * LONG_FRAME);
    say(" bytes: ");
    say_number(ticks);
    say(" ticks, ");
    say_number(FRAMES * LONG_FRAME / ticks);
    say(" bytes a tick\n");
    return 0;
}
