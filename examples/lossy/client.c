/* Has sixteen jobs done by a server. What the link drops it does not hear of: after a while it sends again what was not answered. */
#include "clint.h"
#include "console.h"
#include "interrupts.h"
#include "message.h"

enum { JOBS = 16, PATIENCE = 50 };

static struct net nic;
static struct message message;

/* Bit i: job i was answered. */
static uint32_t answered;
static uint32_t sum;

static int is_done(void)
{
    return answered == (1u << JOBS) - 1;
}

/* Answers how many were sent. */
static uint32_t send_unanswered(void)
{
    uint32_t sent = 0;
    for (uint32_t job = 0; job < JOBS; job++) {
        if (answered >> job & 1)
            continue;
        net_head(&nic, &message.head);
        message.job = job;
        message.answer = 0;
        net_send(&nic, &message, JOB_BYTES);
        sent++;
    }
    return sent;
}

/* An answer may come twice, and counts once. */
static void collect(uint64_t deadline)
{
    while (!is_done() && clock_now() < deadline) {
        if (!net_receive(&nic, &message, sizeof message))
            wait_for_device_until(deadline);
        else if (!(answered >> message.job & 1)) {
            answered |= 1u << message.job;
            sum += message.answer;
        }
    }
}

static uint32_t count(uint32_t bits)
{
    uint32_t ones = 0;
    for (; bits; bits &= bits - 1)
        ones++;
    return ones;
}

static void tell(uint32_t round, uint32_t sent)
{
    say("round ");
    say_number(round);
    say(": sent ");
    say_number(sent);
    say(", answered so far ");
    say_number(count(answered));
    say("\n");
}

int main(void)
{
    const char *fault = net_start(&nic, 0, BY_INTERRUPT);
    if (fault) {
        say(fault);
        say("\n");
        return 1;
    }
    for (uint32_t round = 1; !is_done(); round++) {
        wait_until(clock_now() + 1);
        uint64_t deadline = clock_now() + PATIENCE;
        uint32_t sent = send_unanswered();
        collect(deadline);
        tell(round, sent);
    }
    say("the sum of the answers is ");
    say_number(sum);
    say("\n");
    return 0;
}
