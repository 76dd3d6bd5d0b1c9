/* Sends itself frames over a link, writes each that comes in on its disk while others are still under way, and reads them again at the end. */
#include "block.h"
#include "console.h"
#include "memory.h"
#include "net.h"

enum { FRAMES = 4, DISK_SLOT = 0, SENDER_SLOT = 1, RECEIVER_SLOT = 2 };

struct message {
    struct ethernet head;
    uint16_t reserved;
    uint32_t number;
};

static struct block disk;
static struct net sender, receiver;
static uint32_t sector[SECTOR_BYTES / 4];

static const char *start(void)
{
    const char *fault = block_start(&disk, DISK_SLOT, BY_INTERRUPT);
    if (!fault)
        fault = net_start(&sender, SENDER_SLOT, BY_INTERRUPT);
    return fault ? fault : net_start(&receiver, RECEIVER_SLOT, BY_INTERRUPT);
}

static void send(uint32_t number)
{
    struct message message = { .number = number };
    net_head(&sender, &message.head);
    net_send(&sender, &message, sizeof message);
}

/* A frame goes into the sector of its number. */
static void keep(const struct message *message)
{
    memset(sector, 0, sizeof sector);
    memcpy(sector, message, sizeof *message);
    if (block_write(&disk, message->number, sector, sizeof sector) != BLOCK_OK)
        say("the disk refuses\n");
}

static void tell(uint32_t number)
{
    block_read(&disk, number, sector, sizeof sector);
    say("sector ");
    say_number(number);
    say(" has frame ");
    say_number(((struct message *)sector)->number);
    say("\n");
}

int main(void)
{
    const char *fault = start();
    if (fault) {
        say(fault);
        say("\n");
        return 1;
    }
    for (uint32_t number = 0; number < FRAMES; number++)
        send(number);
    for (uint32_t kept = 0; kept < FRAMES;) {
        struct message message;
        if (net_receive(&receiver, &message, sizeof message)) {
            keep(&message);
            kept++;
        } else {
            wait_for_device();
        }
    }
    for (uint32_t number = 0; number < FRAMES; number++)
        tell(number);
    return 0;
}
