/* A job and its answer. The answer is the longer of the two. */
#ifndef MESSAGE_H
#define MESSAGE_H

#include "net.h"

enum { JOB_BYTES = 64, ANSWER_BYTES = 256 };

struct message {
    struct ethernet head;
    uint16_t reserved;
    uint32_t job;
    uint32_t answer;
    uint8_t filling[ANSWER_BYTES - 24];
};

#endif
