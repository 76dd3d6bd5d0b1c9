/* The sections are those of virtio 1.2. */
#include "block.h"

/* VIRTIO_BLK_F_FLUSH (section 5.2.3). */
enum { FLUSH_FEATURE = 1 << 9 };

/* Types of requests (section 5.2.6). */
enum { READ = 0, WRITE = 1, FLUSH = 4 };

/* The descriptors of a request, which is the only one: header, data and status. */
enum { HEADER, DATA, RESULT };

const char *block_start(struct block *disk, int slot, enum waits waits)
{
    const char *fault = virtio_open(&disk->device, slot, VIRTIO_BLOCK, FLUSH_FEATURE, waits);
    if (!fault)
        fault = queue_open(&disk->device, &disk->queue, 0, 1);
    if (!fault)
        virtio_go(&disk->device);
    return fault;
}

/* The low half of a number of 64 bits: no disk of a guest needs more. */
uint32_t block_sectors(const struct block *disk)
{
    return virtio_config_word(&disk->device, 0);
}

/* Waits until the device gives the chain back. It must say how many bytes it wrote, where it says that all is well. */
static enum block_status answer(struct block *disk, uint32_t length)
{
    struct chain chain;
    while (!queue_take_back(&disk->queue, &chain)) {
        if (virtio_is_broken(&disk->device))
            return BLOCK_BROKEN;
        wait_for_device();
    }
    if (chain.head != HEADER || (disk->result == BLOCK_OK && chain.length != length))
        return BLOCK_BROKEN;
    return disk->result;
}

/* A request without data has no descriptor for it. */
static enum block_status request(struct block *disk, uint32_t type, uint32_t sector, volatile void *data, uint32_t bytes)
{
    uint16_t by_device = type == READ ? DEVICE_WRITES : 0;
    disk->header.type = type;
    disk->header.sector = sector;
    disk->result = 0xff;
    queue_describe(&disk->queue, HEADER, &disk->header, sizeof disk->header, CHAINED, bytes ? DATA : RESULT);
    queue_describe(&disk->queue, DATA, data, bytes, CHAINED | by_device, RESULT);
    queue_describe(&disk->queue, RESULT, &disk->result, 1, DEVICE_WRITES, 0);
    queue_hand_over(&disk->queue, HEADER);
    queue_notify(&disk->device, &disk->queue);
    return answer(disk, by_device ? bytes + 1 : 1);
}

enum block_status block_read(struct block *disk, uint32_t sector, void *data, uint32_t bytes)
{
    return request(disk, READ, sector, data, bytes);
}

enum block_status block_write(struct block *disk, uint32_t sector, const void *data, uint32_t bytes)
{
    return request(disk, WRITE, sector, (void *)data, bytes);
}

enum block_status block_flush(struct block *disk)
{
    if (!(disk->device.features & FLUSH_FEATURE))
        return BLOCK_UNSUPPORTED;
    return request(disk, FLUSH, 0, 0, 0);
}
