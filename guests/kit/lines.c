#include "lines.h"

#include "machine.h"

enum { INTERRUPT_STATUS = 0x060, INTERRUPT_ACKNOWLEDGE = 0x064 };

uint32_t lines_acknowledge(void)
{
    uint32_t lines = load_word(LINE_REGISTER);
    for (uint32_t slot = 0; lines >> slot; slot++) {
        uintptr_t registers = VIRTIO_SLOTS + slot * VIRTIO_SLOT_BYTES;
        if (lines >> slot & 1)
            store_word(registers + INTERRUPT_ACKNOWLEDGE, load_word(registers + INTERRUPT_STATUS));
    }
    order_memory();
    return lines;
}
