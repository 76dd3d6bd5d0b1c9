/* Where the devices of a guest's machine stand (docs/FORMATS.md, "What a guest finds"), and how their registers and the
   control and status registers of the hart are reached. */
#ifndef MACHINE_H
#define MACHINE_H

#include <stdint.h>

#define POWER_REGISTER 0x00100000u
#define CLINT 0x02000000u
#define LINE_REGISTER 0x03000000u
#define UART 0x10000000u
#define VIRTIO_SLOTS 0x10001000u
#define VIRTIO_SLOT_BYTES 0x1000u

static inline uint32_t load_word(uintptr_t address)
{
    return *(volatile uint32_t *)address;
}

static inline void store_word(uintptr_t address, uint32_t value)
{
    *(volatile uint32_t *)address = value;
}

static inline uint8_t load_byte(uintptr_t address)
{
    return *(volatile uint8_t *)address;
}

static inline void store_byte(uintptr_t address, uint8_t value)
{
    *(volatile uint8_t *)address = value;
}

/* All that was stored before stands in memory for a device, and all that is loaded later is loaded then (unprivileged manual, "FENCE"). */
static inline void order_memory(void)
{
    __asm__ volatile("fence iorw, iorw" ::: "memory");
}

/* A control and status register, by its name (unprivileged manual, "Zicsr"). `csr_clear` answers what stood there before. */
#define csr_read(name) ({ uint32_t value_; __asm__ volatile("csrr %0, " #name : "=r"(value_)); value_; })
#define csr_write(name, value) __asm__ volatile("csrw " #name ", %0" :: "r"(value) : "memory")
#define csr_set(name, bits) __asm__ volatile("csrs " #name ", %0" :: "r"(bits) : "memory")
#define csr_clear(name, bits) ({ uint32_t before_; __asm__ volatile("csrrc %0, " #name ", %1" : "=r"(before_) : "r"(bits) : "memory"); before_; })

#endif
