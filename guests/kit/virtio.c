/* The sections are those of virtio 1.2. */
#include "virtio.h"

#include "clint.h"
#include "interrupts.h"
#include "lines.h"
#include "machine.h"

/* Registers (section 4.2.2). */
enum {
    MAGIC_VALUE = 0x000,
    VERSION = 0x004,
    DEVICE_ID = 0x008,
    DEVICE_FEATURES = 0x010,
    DEVICE_FEATURES_SELECT = 0x014,
    DRIVER_FEATURES = 0x020,
    DRIVER_FEATURES_SELECT = 0x024,
    QUEUE_SELECT = 0x030,
    QUEUE_SIZE_MAX = 0x034,
    QUEUE_SIZE = 0x038,
    QUEUE_READY = 0x044,
    QUEUE_NOTIFY = 0x050,
    STATUS = 0x070,
    QUEUE_TABLE = 0x080,
    QUEUE_AVAILABLE = 0x090,
    QUEUE_USED = 0x0a0,
    CONFIG_GENERATION = 0x0fc,
    CONFIG = 0x100,
};

enum { MAGIC = 0x74726976 };

/* Status bits (section 2.1). */
enum { ACKNOWLEDGE = 1, DRIVER = 2, DRIVER_OK = 4, FEATURES_OK = 8, NEEDS_RESET = 64 };

/* VIRTIO_F_VERSION_1 (section 6): bit 32 of the features, so bit 0 of their second word. */
enum { VERSION_1 = 1 };

/* A flag of the available ring (section 2.7.6). */
enum { NO_INTERRUPT = 1 };

/* How many devices interrupt. */
static int interrupting;

static uint32_t get(const struct virtio *device, uintptr_t offset)
{
    return load_word(device->registers + offset);
}

static void set(const struct virtio *device, uintptr_t offset, uint32_t value)
{
    store_word(device->registers + offset, value);
}

/* A register of 64 bits, low word first. */
static void set_address(const struct virtio *device, uintptr_t offset, volatile void *at)
{
    set(device, offset, (uint32_t)(uintptr_t)at);
    set(device, offset + 4, 0);
}

static void accept_features(struct virtio *device, uint32_t wanted)
{
    set(device, DEVICE_FEATURES_SELECT, 0);
    device->features = get(device, DEVICE_FEATURES) & wanted;
    set(device, DRIVER_FEATURES_SELECT, 0);
    set(device, DRIVER_FEATURES, device->features);
    set(device, DRIVER_FEATURES_SELECT, 1);
    set(device, DRIVER_FEATURES, VERSION_1);
}

/* The order of section 3.1.1, up to its step 6. */
const char *virtio_open(struct virtio *device, int slot, uint32_t kind, uint32_t wanted, enum waits waits)
{
    /* one that is opened once more was counted before */
    if (device->waits == BY_INTERRUPT)
        interrupting--;
    device->registers = VIRTIO_SLOTS + (uintptr_t)slot * VIRTIO_SLOT_BYTES;
    device->waits = BY_POLLING;
    if (get(device, MAGIC_VALUE) != MAGIC || get(device, VERSION) != 2)
        return "no virtio device of version 2";
    if (get(device, DEVICE_ID) != kind)
        return "no device of this kind";
    set(device, STATUS, 0);
    while (get(device, STATUS))
        ;
    set(device, STATUS, ACKNOWLEDGE);
    set(device, STATUS, ACKNOWLEDGE | DRIVER);
    accept_features(device, wanted);
    set(device, STATUS, ACKNOWLEDGE | DRIVER | FEATURES_OK);
    if (!(get(device, STATUS) & FEATURES_OK))
        return "the features are refused";
    device->waits = waits;
    if (waits == BY_INTERRUPT)
        interrupting++;
    return 0;
}

static void empty(struct queue *queue, uint16_t flags)
{
    queue->available.flags = flags;
    queue->available.index = 0;
    queue->used.flags = 0;
    queue->used.index = 0;
    queue->taken = 0;
}

/* Section 4.2.3.2. */
const char *queue_open(const struct virtio *device, struct queue *queue, uint32_t number, int interrupts)
{
    queue->number = number;
    set(device, QUEUE_SELECT, number);
    if (get(device, QUEUE_READY) || get(device, QUEUE_SIZE_MAX) < QUEUE_ROOM)
        return "no such queue";
    empty(queue, device->waits == BY_INTERRUPT && interrupts ? 0 : NO_INTERRUPT);
    order_memory();
    set(device, QUEUE_SIZE, QUEUE_ROOM);
    set_address(device, QUEUE_TABLE, queue->table);
    set_address(device, QUEUE_AVAILABLE, &queue->available);
    set_address(device, QUEUE_USED, &queue->used);
    set(device, QUEUE_READY, 1);
    return get(device, QUEUE_READY) == 1 ? 0 : "a queue is refused";
}

void virtio_go(const struct virtio *device)
{
    set(device, STATUS, ACKNOWLEDGE | DRIVER | FEATURES_OK | DRIVER_OK);
}

int virtio_is_broken(const struct virtio *device)
{
    return (get(device, STATUS) & NEEDS_RESET) != 0;
}

uint8_t virtio_config_byte(const struct virtio *device, uint32_t offset)
{
    return load_byte(device->registers + CONFIG + offset);
}

uint32_t virtio_config_word(const struct virtio *device, uint32_t offset)
{
    uint32_t generation, word;
    do {
        generation = get(device, CONFIG_GENERATION);
        word = get(device, CONFIG + offset);
    } while (generation != get(device, CONFIG_GENERATION));
    return word;
}

void queue_describe(struct queue *queue, uint32_t place, volatile void *at, uint32_t length, uint16_t flags, uint16_t next)
{
    queue->table[place].address = (uintptr_t)at;
    queue->table[place].length = length;
    queue->table[place].flags = flags;
    queue->table[place].next = next;
}

/* Section 2.7.13. */
void queue_hand_over(struct queue *queue, uint32_t head)
{
    queue->available.heads[queue->available.index % QUEUE_ROOM] = (uint16_t)head;
    order_memory();
    queue->available.index++;
}

void queue_notify(const struct virtio *device, const struct queue *queue)
{
    order_memory();
    set(device, QUEUE_NOTIFY, queue->number);
}

/* Section 2.7.14. */
int queue_take_back(struct queue *queue, struct chain *chain)
{
    if (queue->used.index == queue->taken)
        return 0;
    order_memory();
    chain->head = queue->used.chains[queue->taken % QUEUE_ROOM].head;
    chain->length = queue->used.chains[queue->taken % QUEUE_ROOM].length;
    queue->taken++;
    return 1;
}

/* Where the guest has a handler for it, the trap was taken when the wait ended, and all that was up is acknowledged. */
static void acknowledge_untaken(void)
{
    if (!interrupts_are_taken(EXTERNAL_INTERRUPT))
        lines_acknowledge();
}

void wait_for_device(void)
{
    if (!interrupting)
        return;
    wait_for(EXTERNAL_INTERRUPT);
    acknowledge_untaken();
}

void wait_for_device_until(uint64_t time)
{
    if (!interrupting)
        return;
    uint32_t held = interrupts_hold();
    alarm_at(time);
    wait_for(EXTERNAL_INTERRUPT | TIMER_INTERRUPT);
    alarm_off();
    interrupts_as_before(held);
    acknowledge_untaken();
}
