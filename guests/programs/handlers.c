/* Takes the interrupts of a nic and of the timer in handlers: frames that it sends from its nic 0 come in at its nic 1. */
#include "clint.h"
#include "console.h"
#include "interrupts.h"
#include "net.h"

enum { FRAMES = 3, PERIOD = 10 };

struct message {
    struct ethernet head;
    uint16_t reserved;
    uint32_t number;
};

static struct net sender, receiver;
static volatile uint32_t alarms, frames, sum;

void on_timer(void)
{
    alarms++;
    alarm_at(clock_now() + PERIOD);
}

void on_external(uint32_t lines)
{
    struct message message;
    if (lines & 1 << 1)
        while (net_receive(&receiver, &message, sizeof message)) {
            frames++;
            sum += message.number;
        }
}

static void send(uint32_t number)
{
    struct message message;
    net_head(&sender, &message.head);
    message.reserved = 0;
    message.number = number;
    net_send(&sender, &message, sizeof message);
}

/* Interrupts are taken in the moment between two looks. */
static void wait_for_alarm(uint32_t wanted)
{
    for (;;) {
        uint32_t held = interrupts_hold();
        if (alarms < wanted)
            sleep_until_enabled();
        interrupts_as_before(held);
        if (alarms >= wanted)
            return;
    }
}

int main(void)
{
    if (net_start(&sender, 0, BY_INTERRUPT) || net_start(&receiver, 1, BY_INTERRUPT)) {
        say("two nics are wanted\n");
        return 1;
    }
    alarm_at(clock_now() + PERIOD);
    interrupts_enable(TIMER_INTERRUPT | EXTERNAL_INTERRUPT);
    interrupts_take();
    for (uint32_t number = 1; number <= FRAMES; number++) {
        send(number);
        wait_for_alarm(number);
        say("alarm ");
        say_number(number);
        say(": frames ");
        say_number(frames);
        say(", sum ");
        say_number(sum);
        say("\n");
    }
    return 0;
}
