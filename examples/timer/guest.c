/* Sleeps from one alarm to the next, each of which comes as a timer interrupt, and takes a software interrupt at the end. */
#include "clint.h"
#include "console.h"
#include "interrupts.h"

enum { ALARMS = 5, PERIOD = 100 };

static volatile uint32_t alarms, early, softwares;
static volatile uint64_t due;

/* The next alarm is a period after this one was due, however late this one was taken. */
void on_timer(void)
{
    alarms++;
    early += clock_now() < due;
    due += PERIOD;
    alarm_at(due);
}

void on_software(void)
{
    softwares++;
    software_interrupt_down();
}

/* Interrupts are taken in the moment between two looks. */
static void sleep_to_alarm(uint32_t wanted)
{
    while (alarms < wanted) {
        uint32_t held = interrupts_hold();
        if (alarms < wanted)
            sleep_until_enabled();
        interrupts_as_before(held);
    }
}

int main(void)
{
    due = clock_now() + PERIOD;
    alarm_at(due);
    interrupts_enable(TIMER_INTERRUPT | SOFTWARE_INTERRUPT);
    interrupts_take();
    for (uint32_t alarm = 1; alarm <= ALARMS; alarm++) {
        sleep_to_alarm(alarm);
        say("alarm ");
        say_number(alarm);
        say("\n");
    }
    alarm_off();
    say(early ? "one came too early\n" : "none came too early\n");
    software_interrupt_up();
    while (!softwares)
        ;
    say("a software interrupt\n");
    return 0;
}
