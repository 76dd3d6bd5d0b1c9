/* What all virtio devices have: registers (virtio 1.2, section 4.2.2), their start (section 3.1.1) and queues (section 2.7). */
#ifndef VIRTIO_H
#define VIRTIO_H

#include <stdint.h>

/* Device ids (section 5). */
enum { VIRTIO_NET = 1, VIRTIO_BLOCK = 2 };

/* How a guest learns that a device has given something back: by looking again and again, or asleep until the device's interrupt. */
enum waits { BY_POLLING, BY_INTERRUPT };

/* Zero before it is opened for the first time. */
struct virtio {
    uintptr_t registers;
    enum waits waits;
    /* the features of the first 32 bits that were accepted */
    uint32_t features;
};

/* Flags of descriptors (section 2.7.5). */
enum { CHAINED = 1, DEVICE_WRITES = 2 };

enum { QUEUE_ROOM = 16 };

struct descriptor {
    uint64_t address;
    uint32_t length;
    uint16_t flags;
    uint16_t next;
};

struct available {
    uint16_t flags;
    uint16_t index;
    uint16_t heads[QUEUE_ROOM];
    uint16_t used_event;
};

struct used {
    uint16_t flags;
    uint16_t index;
    struct { uint32_t head; uint32_t length; } chains[QUEUE_ROOM];
    uint16_t available_event;
};

struct queue {
    volatile struct descriptor table[QUEUE_ROOM] __attribute__((aligned(16)));
    volatile struct used used __attribute__((aligned(4)));
    volatile struct available available;
    uint32_t number;
    /* how many chains were taken back */
    uint16_t taken;
};

/* A chain that a device has given back: its first descriptor, and how many bytes the device says that it wrote. */
struct chain {
    uint32_t head;
    uint32_t length;
};

/* Resets the device in this virtio slot, and accepts of the first 32 features those that are wanted and offered. Null where all is well, else
   what is wrong. The queues come next, and then `virtio_go`. */
const char *virtio_open(struct virtio *device, int slot, uint32_t kind, uint32_t wanted, enum waits waits);

/* The device's queue of this number, empty. `interrupts` says whether the device is to interrupt when it gives a chain of it back, where the
   guest waits by interrupt. */
const char *queue_open(const struct virtio *device, struct queue *queue, uint32_t number, int interrupts);

void virtio_go(const struct virtio *device);

/* Whether the device has stopped until it is reset, as it does where a queue is malformed. */
int virtio_is_broken(const struct virtio *device);

/* A byte of the device's configuration. */
uint8_t virtio_config_byte(const struct virtio *device, uint32_t offset);

/* A word of it, which the device may have changed in the meantime: read again where it did (section 2.5). */
uint32_t virtio_config_word(const struct virtio *device, uint32_t offset);

void queue_describe(struct queue *queue, uint32_t place, volatile void *at, uint32_t length, uint16_t flags, uint16_t next);

/* The chain that begins with this descriptor is the device's. It looks when it is notified. */
void queue_hand_over(struct queue *queue, uint32_t head);
void queue_notify(const struct virtio *device, const struct queue *queue);

/* Takes back the next chain that the device has given back, and says whether there was one. */
int queue_take_back(struct queue *queue, struct chain *chain);

/* Sleeps until a device that interrupts has given a chain back since the last wait, or until this time. The guest looks at its queues before it waits and
   after it, since the interrupts of all of them are acknowledged here, or by the trap that is taken for them. Where no device waits by interrupt these
   return at once, so that a loop around them polls. The alarm is used for the time, and is left off. */
void wait_for_device(void);
void wait_for_device_until(uint64_t time);

#endif
