/* The sections are those of virtio 1.2. */
#include "net.h"

#include "memory.h"

/* VIRTIO_NET_F_MAC (section 5.1.3). */
enum { MAC_FEATURE = 1 << 5 };

/* The queues (section 5.1.2). */
enum { RECEIVES = 0, SENDS = 1 };

void net_head(const struct net *nic, struct ethernet *head)
{
    memset(head->to, 0xff, sizeof head->to);
    memcpy(head->from, nic->address, sizeof head->from);
    head->type[0] = 0x88;
    head->type[1] = 0xb5;
}

/* A buffer of its own for each of the first descriptors, header and frame in one (section 5.1.6.3). */
static void give_buffers(struct net *nic)
{
    for (uint32_t place = 0; place < NET_BUFFERS; place++) {
        queue_describe(&nic->receives, place, &nic->received[place], sizeof nic->received[place], DEVICE_WRITES, 0);
        queue_hand_over(&nic->receives, place);
    }
}

const char *net_start(struct net *nic, int slot, enum waits waits)
{
    const char *fault = virtio_open(&nic->device, slot, VIRTIO_NET, MAC_FEATURE, waits);
    if (!fault)
        fault = queue_open(&nic->device, &nic->receives, RECEIVES, 1);
    if (!fault)
        fault = queue_open(&nic->device, &nic->sends, SENDS, 0);
    if (fault)
        return fault;
    for (uint32_t place = 0; place < sizeof nic->address; place++)
        nic->address[place] = virtio_config_byte(&nic->device, place);
    nic->busy = 0;
    give_buffers(nic);
    virtio_go(&nic->device);
    queue_notify(&nic->device, &nic->receives);
    return 0;
}

/* A buffer that is not on its way, or NET_BUFFERS where the nic is broken and gives none back. */
static uint32_t free_buffer(struct net *nic)
{
    for (;;) {
        struct chain chain;
        while (queue_take_back(&nic->sends, &chain))
            nic->busy &= ~(1u << chain.head);
        for (uint32_t place = 0; place < NET_BUFFERS; place++)
            if (!(nic->busy >> place & 1))
                return place;
        if (virtio_is_broken(&nic->device))
            return NET_BUFFERS;
    }
}

/* The header stays zero: no checksum is asked for, and the frame is no part of a longer one (section 5.1.6.2). */
int net_send(struct net *nic, const void *frame, uint32_t length)
{
    if (length < NET_LEAST || length > NET_MOST)
        return 0;
    uint32_t place = free_buffer(nic);
    if (place == NET_BUFFERS)
        return 0;
    struct net_buffer *buffer = &nic->sent[place];
    memcpy(buffer->frame, frame, length);
    nic->busy |= 1u << place;
    queue_describe(&nic->sends, place, buffer, sizeof buffer->header + length, 0, 0);
    queue_hand_over(&nic->sends, place);
    queue_notify(&nic->device, &nic->sends);
    return 1;
}

/* The buffer is given to the nic again at once (section 5.1.6.4). */
uint32_t net_receive(struct net *nic, void *frame, uint32_t room)
{
    struct chain chain;
    if (!queue_take_back(&nic->receives, &chain))
        return 0;
    uint32_t length = chain.length - sizeof nic->received[0].header;
    memcpy(frame, nic->received[chain.head].frame, length < room ? length : room);
    queue_hand_over(&nic->receives, chain.head);
    queue_notify(&nic->device, &nic->receives);
    return length;
}
