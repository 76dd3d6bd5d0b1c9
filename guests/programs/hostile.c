/* Hands the disk or nic in virtio slot 0 queues that are right, nearly right and wrong, and tells a sum of what it then finds. What it does follows from
   the device's configuration, which is the sectors of the disk or the MAC address, and from the guest's rate. It is run in experiments that are made
   at random. */
#include "clint.h"
#include "console.h"
#include "interrupts.h"
#include "machine.h"

enum { TURNS = 40, MOST = 8, RAM_BYTES = 65536 };

enum { DRIVER_FEATURES_SELECT = 0x024, DRIVER_FEATURES = 0x020, QUEUE_SELECT = 0x030, QUEUE_SIZE = 0x038, QUEUE_READY = 0x044 };
enum { QUEUE_NOTIFY = 0x050, INTERRUPT_STATUS = 0x060, STATUS = 0x070, TABLE = 0x080, AVAILABLE = 0x090, USED = 0x0a0, CONFIG = 0x100 };

struct descriptor {
    uint64_t address;
    uint32_t length;
    uint16_t flags;
    uint16_t next;
};

static struct descriptor table[MOST] __attribute__((aligned(16)));
static uint16_t available[2 + MOST + 1];
static uint32_t used[1 + 2 * MOST + 1];
static uint32_t buffer[1024];
static uint32_t seed, sum;

/* The generator of Numerical Recipes. */
static uint32_t below(uint32_t limit)
{
    seed = seed * 1664525u + 1013904223u;
    return (seed >> 8) % limit;
}

static void set(uint32_t offset, uint32_t value)
{
    store_word(VIRTIO_SLOTS + offset, value);
}

static void add(uint32_t value)
{
    sum = sum * 31 + value;
}

/* The address itself most often, and else one at the end of RAM or outside. */
static uint64_t about(void *at)
{
    uint64_t end = 0x80000000u + RAM_BYTES;
    switch (below(24)) {
    case 0:
        return end - below(40);
    case 1:
        return below(64);
    case 2:
        return (uint64_t)-1 - below(4);
    case 3:
        return (uintptr_t)at | 1ull << 32;
    default:
        return (uintptr_t)at;
    }
}

static void set_address(uint32_t offset, uint64_t address)
{
    set(offset, (uint32_t)address);
    set(offset + 4, (uint32_t)(address >> 32));
}

static uint32_t some_length(void)
{
    static const uint32_t lengths[] = { 0, 1, 12, 15, 16, 17, 26, 60, 512, 513, 1024, 1526, 0xffffffff };
    return lengths[below(sizeof lengths / sizeof *lengths)];
}

/* A chain from the first descriptor on that a disk or a nic may well take: short readable ones first, then writable ones. */
static void describe_well(uint32_t size)
{
    uint32_t parts = 1 + below(size < 4 ? size : 4), readable = parts == 1 ? below(2) : 1 + below(parts - 1);
    for (uint32_t place = 0; place < parts; place++) {
        table[place].address = (uintptr_t)buffer + 16 * below(64);
        table[place].length = place == 0 ? 16 : place + 1 == parts ? 1 : 512;
        table[place].flags = (uint16_t)((place + 1 < parts) | (place >= readable) << 1);
        table[place].next = (uint16_t)(place + 1);
    }
    table[0].address = (uintptr_t)buffer;
}

static void describe_badly(uint32_t size)
{
    for (uint32_t place = 0; place < size; place++) {
        table[place].address = about((uint8_t *)buffer + below(2048));
        table[place].length = some_length();
        table[place].flags = (uint16_t)(below(12) ? below(4) : below(8));
        table[place].next = (uint16_t)below(below(8) ? size : size + 2);
    }
}

/* The device, ready but for its queues. */
static void reset(void)
{
    set(STATUS, 0);
    set(STATUS, 3);
    set(DRIVER_FEATURES_SELECT, 1);
    set(DRIVER_FEATURES, 1);
    set(STATUS, below(16) ? 11 : 3);
}

static void start_queue(uint32_t number, uint32_t size)
{
    set(QUEUE_SELECT, number);
    set(QUEUE_SIZE, size);
    set_address(TABLE, below(4) ? (uintptr_t)table : about(table));
    set_address(AVAILABLE, below(4) ? (uintptr_t)available : about(available));
    set_address(USED, below(4) ? (uintptr_t)used : about(used));
    set(QUEUE_READY, 1);
    set(STATUS, 15);
}

/* The header of a request of a disk, in the first four words of the buffer. */
static void make_header(void)
{
    buffer[0] = below(6) ? below(2) : below(6);
    buffer[2] = below(6) ? below(4) : seed;
    buffer[3] = below(12) ? 0 : below(2);
}

/* More chains, of which some may be out already. */
static void offer(uint32_t number, uint32_t size)
{
    uint32_t chains = below(16) ? 1 + below(2) : size + below(3);
    for (uint32_t chain = 0; chain < chains; chain++)
        available[2 + (available[1] + chain) % size] = (uint16_t)(below(4) ? 0 : below(size + 1));
    available[0] = (uint16_t)below(2);
    available[1] = (uint16_t)(available[1] + chains);
    order_memory();
    set(QUEUE_NOTIFY, number);
}

static void turn(void)
{
    uint32_t size = 1u << below(4), number = below(2);
    reset();
    available[1] = 0;
    used[0] = 0;
    start_queue(number, size);
    for (uint32_t times = 1 + below(3); times; times--) {
        if (below(3))
            describe_well(size);
        else
            describe_badly(size);
        make_header();
        offer(number, size);
        wait_until(clock_now() + 1 + below(12));
        order_memory();
        add(load_word(VIRTIO_SLOTS + STATUS));
        add(load_word(VIRTIO_SLOTS + INTERRUPT_STATUS));
    }
    for (uint32_t place = 0; place < sizeof used / sizeof *used; place++)
        add(used[place]);
}

int main(void)
{
    wait_until(clock_now() + 1);
    seed = load_word(VIRTIO_SLOTS + CONFIG) + load_word(VIRTIO_SLOTS + CONFIG + 4) * 7919u + csr_read(cycle) * 31u;
    for (uint32_t place = 0; place < sizeof buffer / sizeof *buffer; place++)
        buffer[place] = place * 0x01010101u;
    for (int count = 0; count < TURNS; count++)
        turn();
    for (uint32_t place = 0; place < sizeof buffer / sizeof *buffer; place++)
        add(buffer[place]);
    say("sum ");
    say_hex(sum);
    say("\n");
    return 0;
}
