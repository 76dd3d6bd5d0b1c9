/* A disk: a virtio block device (virtio 1.2, section 5.2), with one request at a time. */
#ifndef BLOCK_H
#define BLOCK_H

#include "virtio.h"

enum { SECTOR_BYTES = 512 };

/* How a request ended: the three that a device answers (section 5.2.6), and that it gave no right answer. */
enum block_status { BLOCK_OK = 0, BLOCK_IO_ERROR = 1, BLOCK_UNSUPPORTED = 2, BLOCK_BROKEN = 256 };

/* What a request begins with (section 5.2.6). */
struct block_header {
    uint32_t type;
    uint32_t reserved;
    uint64_t sector;
};

struct block {
    struct virtio device;
    struct queue queue;
    volatile struct block_header header;
    volatile uint8_t result;
};

/* Resets the disk in this virtio slot and brings it up: a guest may do so again at any time. Null where it is ready, else what is wrong. */
const char *block_start(struct block *disk, int slot, enum waits waits);

/* How many sectors the disk has. */
uint32_t block_sectors(const struct block *disk);

/* Data of whole sectors. Both wait until the request is done. */
enum block_status block_read(struct block *disk, uint32_t sector, void *data, uint32_t bytes);
enum block_status block_write(struct block *disk, uint32_t sector, const void *data, uint32_t bytes);

/* All that was written before is kept by the disk. */
enum block_status block_flush(struct block *disk);

#endif
