/* An interpreter of RV32IM in C over RAM, with the same work a step as the hart has: a stop test, a wait
   test, an interrupt test, a fetch with its bounds, a decode, the instruction, two counts. */
#include <stdint.h>
#include <string.h>

#define BASE 0x80000000u
#define SIZE 65536u

enum fault { FINE, MISALIGNED, OUTSIDE };
enum did { IDLE, RETIRED, TRAPPED };

struct hart {
    uint32_t regs[32];
    uint32_t pc;
    int waiting;
    int enabled, was_enabled;
    uint32_t mie, mtvec, mepc, mcause, mtval;
    uint64_t steps, retired;
};

struct bus {
    uint8_t *bytes;
    uint32_t size;
    int software, timer, external, stopped;
};

static enum fault load(const struct bus *bus, uint32_t addr, uint32_t width, uint32_t *value)
{
    uint32_t at = addr - BASE;
    if (addr & (width - 1))
        return MISALIGNED;
    if (at >= bus->size)
        return OUTSIDE;
    if (width == 4) {
        memcpy(value, bus->bytes + at, 4);
    } else if (width == 2) {
        uint16_t half;
        memcpy(&half, bus->bytes + at, 2);
        *value = half;
    } else {
        *value = bus->bytes[at];
    }
    return FINE;
}

static enum fault store(struct bus *bus, uint32_t addr, uint32_t width, uint32_t value)
{
    uint32_t at = addr - BASE;
    if (addr & (width - 1))
        return MISALIGNED;
    if (at >= bus->size)
        return OUTSIDE;
    memcpy(bus->bytes + at, &value, width);
    return FINE;
}

static int wakes(const struct hart *hart, const struct bus *bus)
{
    return (bus->external && hart->mie >> 11 & 1) || (bus->software && hart->mie >> 3 & 1)
        || (bus->timer && hart->mie >> 7 & 1);
}

static enum did trap(struct hart *hart, uint32_t cause, uint32_t value)
{
    hart->mepc = hart->pc & ~3u;
    hart->mcause = cause;
    hart->mtval = value;
    hart->was_enabled = hart->enabled;
    hart->enabled = 0;
    hart->pc = hart->mtvec & ~3u;
    if ((hart->mtvec & 1) && cause >> 31)
        hart->pc += 4 * (cause & 0x7fffffff);
    hart->steps++;
    return TRAPPED;
}

static void put(struct hart *hart, uint32_t rd, uint32_t value)
{
    if (rd != 0)
        hart->regs[rd] = value;
    hart->pc += 4;
}

static uint32_t alu(uint32_t funct3, uint32_t other, uint32_t a, uint32_t b)
{
    switch (funct3) {
    case 0: return other ? a - b : a + b;
    case 1: return a << (b & 31);
    case 2: return (int32_t)a < (int32_t)b;
    case 3: return a < b;
    case 4: return a ^ b;
    case 5: return other ? (uint32_t)((int32_t)a >> (b & 31)) : a >> (b & 31);
    case 6: return a | b;
    default: return a & b;
    }
}

static uint32_t muldiv(uint32_t funct3, uint32_t a, uint32_t b)
{
    switch (funct3) {
    case 0: return a * b;
    case 1: return (uint32_t)((int64_t)(int32_t)a * (int32_t)b >> 32);
    case 2: return (uint32_t)((int64_t)(int32_t)a * (int64_t)(uint64_t)b >> 32);
    case 3: return (uint32_t)((uint64_t)a * b >> 32);
    case 4: return b == 0 ? 0xffffffff : a == 0x80000000 && b == 0xffffffff ? a : (uint32_t)((int32_t)a / (int32_t)b);
    case 5: return b == 0 ? 0xffffffff : a / b;
    case 6: return b == 0 ? a : a == 0x80000000 && b == 0xffffffff ? 0 : (uint32_t)((int32_t)a % (int32_t)b);
    default: return b == 0 ? a : a % b;
    }
}

static int taken(uint32_t funct3, uint32_t a, uint32_t b)
{
    switch (funct3) {
    case 0: return a == b;
    case 1: return a != b;
    case 4: return (int32_t)a < (int32_t)b;
    case 5: return (int32_t)a >= (int32_t)b;
    case 6: return a < b;
    case 7: return a >= b;
    default: return -1;
    }
}

static int jump(struct hart *hart, uint32_t rd, uint32_t target)
{
    if (target & 3)
        return 0;
    if (rd != 0)
        hart->regs[rd] = hart->pc + 4;
    hart->pc = target;
    return 1;
}

static enum did step(struct hart *hart, struct bus *bus, uint32_t *pc, uint32_t *seen)
{
    uint32_t word, value, target, addr;
    if (bus->stopped || (hart->waiting && !wakes(hart, bus))) {
        hart->steps++;
        return IDLE;
    }
    hart->waiting = 0;
    if (hart->enabled) {
        if (bus->external && hart->mie >> 11 & 1)
            return trap(hart, 0x8000000b, 0);
        if (bus->software && hart->mie >> 3 & 1)
            return trap(hart, 0x80000003, 0);
        if (bus->timer && hart->mie >> 7 & 1)
            return trap(hart, 0x80000007, 0);
    }
    if (load(bus, hart->pc, 4, &word) != FINE)
        return trap(hart, 1, hart->pc);
    *pc = hart->pc;
    *seen = word;
    uint32_t rd = word >> 7 & 31, funct3 = word >> 12 & 7, funct7 = word >> 25;
    uint32_t a = hart->regs[word >> 15 & 31], b = hart->regs[word >> 20 & 31];
    int32_t imm = (int32_t)word >> 20;
    switch (word & 127) {
    case 0x37:
        put(hart, rd, word & 0xfffff000);
        break;
    case 0x17:
        put(hart, rd, hart->pc + (word & 0xfffff000));
        break;
    case 0x6f:
        target = hart->pc + (((uint32_t)((int32_t)word >> 31) << 20) | (word & 0xff000) | (word >> 9 & 0x800) | (word >> 20 & 0x7fe));
        if (!jump(hart, rd, target))
            return trap(hart, 0, target);
        break;
    case 0x67:
        if (funct3 != 0)
            return trap(hart, 2, word);
        target = (a + imm) & ~1u;
        if (!jump(hart, rd, target))
            return trap(hart, 0, target);
        break;
    case 0x63:
        switch (taken(funct3, a, b)) {
        case -1:
            return trap(hart, 2, word);
        case 0:
            hart->pc += 4;
            break;
        default:
            target = hart->pc + (((uint32_t)((int32_t)word >> 31) << 12) | (word << 4 & 0x800) | (word >> 20 & 0x7e0) | (word >> 7 & 0x1e));
            if (!jump(hart, 0, target))
                return trap(hart, 0, target);
        }
        break;
    case 0x03: {
        static const uint32_t widths[] = {1, 2, 4, 0, 1, 2, 0, 0};
        if (widths[funct3] == 0)
            return trap(hart, 2, word);
        addr = a + imm;
        switch (load(bus, addr, widths[funct3], &value)) {
        case MISALIGNED: return trap(hart, 4, addr);
        case OUTSIDE: return trap(hart, 5, addr);
        default: break;
        }
        if (funct3 == 0)
            value = (uint32_t)(int8_t)value;
        if (funct3 == 1)
            value = (uint32_t)(int16_t)value;
        put(hart, rd, value);
        break;
    }
    case 0x23:
        if (funct3 > 2)
            return trap(hart, 2, word);
        addr = a + (((uint32_t)((int32_t)word >> 25) << 5) | (word >> 7 & 31));
        switch (store(bus, addr, 1u << funct3, b)) {
        case MISALIGNED: return trap(hart, 6, addr);
        case OUTSIDE: return trap(hart, 7, addr);
        default: hart->pc += 4;
        }
        break;
    case 0x13:
        if (funct3 == 1 && funct7 != 0)
            return trap(hart, 2, word);
        if (funct3 == 5 && funct7 != 0 && funct7 != 0x20)
            return trap(hart, 2, word);
        put(hart, rd, alu(funct3, funct3 == 5 && funct7 == 0x20, a, imm));
        break;
    case 0x33:
        if (funct7 == 1)
            put(hart, rd, muldiv(funct3, a, b));
        else if (funct7 == 0 || (funct7 == 0x20 && (funct3 == 0 || funct3 == 5)))
            put(hart, rd, alu(funct3, funct7 == 0x20, a, b));
        else
            return trap(hart, 2, word);
        break;
    default:
        return trap(hart, 2, word);
    }
    hart->steps++;
    hart->retired++;
    return RETIRED;
}
