/* What client and server send each other. */
#ifndef MESSAGE_H
#define MESSAGE_H

#include "net.h"

/* A probe is sent back as it is. Data is answered by a frame without any. */
enum kind { PROBE, DATA, GOT };

enum { DATA_BYTES = 280 };

struct message {
    struct ethernet head;
    uint16_t kind;
    uint32_t number;
    uint8_t data[DATA_BYTES];
};

/* The bytes of a frame without data, and with it. */
enum { SHORT_FRAME = 20, LONG_FRAME = SHORT_FRAME + DATA_BYTES };

#endif
