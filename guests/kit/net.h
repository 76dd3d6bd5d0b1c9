/* A nic: a virtio net device (virtio 1.2, section 5.1), and the frames that it carries. */
#ifndef NET_H
#define NET_H

#include "virtio.h"

/* The bytes of a frame, with its header of Ethernet. */
enum { NET_LEAST = 14, NET_MOST = 1514 };

/* How many frames the guest has room for on each of both ways. More that arrive wait in the nic. */
enum { NET_BUFFERS = 4 };

/* A frame behind the header that virtio puts before it (section 5.1.6). Both begin at a multiple of four, so that a copy goes by words. */
struct net_buffer {
    uint8_t header[12];
    uint8_t frame[NET_MOST + 2];
} __attribute__((aligned(4)));

struct net {
    struct virtio device;
    struct queue receives;
    struct queue sends;
    struct net_buffer received[NET_BUFFERS];
    struct net_buffer sent[NET_BUFFERS];
    /* bit i: buffer i of those that are sent is on its way */
    uint32_t busy;
    /* its MAC address: of diecast 02:00:00:00, the number of the guest, the number of the nic */
    uint8_t address[6];
};

/* What a frame begins with. Both addresses may be anything here: a nic takes all that arrives. */
struct ethernet {
    uint8_t to[6];
    uint8_t from[6];
    uint8_t type[2];
};

/* Fills it in: to all, from this nic, of a type for private use (IEEE 802, "Local Experimental Ethertype 1"). */
void net_head(const struct net *nic, struct ethernet *head);

/* Resets the nic in this virtio slot and brings it up. Null where it is ready, else what is wrong. */
const char *net_start(struct net *nic, int slot, enum waits waits);

/* Sends a copy of the frame; waits where all buffers are on their way. Says whether it was handed over: it is not where the nic is broken, or
   the length is no frame's. */
int net_send(struct net *nic, const void *frame, uint32_t length);

/* The length of the next frame that arrived, of which `frame` then has as much as there is room for; 0 where none is there. */
uint32_t net_receive(struct net *nic, void *frame, uint32_t room);

#endif
