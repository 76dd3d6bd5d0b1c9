/* What client and server send each other: a number, and so many bytes behind it as the client likes. */
#ifndef MESSAGE_H
#define MESSAGE_H

#include "net.h"

struct message {
    struct ethernet head;
    uint16_t reserved;
    uint32_t number;
    uint8_t filling[NET_MOST - 20];
};

#endif
