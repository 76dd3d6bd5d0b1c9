/* Multiplies, divides and shifts what lies at the edges, and tells a sum of each operation's results (unprivileged manual, "M" and "RV32I"). */
#include "console.h"

#define OPERATION(name) \
    static uint32_t do_##name(uint32_t a, uint32_t b) \
    { \
        uint32_t result; \
        __asm__ volatile(#name " %0, %1, %2" : "=r"(result) : "r"(a), "r"(b)); \
        return result; \
    }

OPERATION(mul)
OPERATION(mulh)
OPERATION(mulhsu)
OPERATION(mulhu)
OPERATION(div)
OPERATION(divu)
OPERATION(rem)
OPERATION(remu)
OPERATION(sra)
OPERATION(sltu)

static const struct {
    const char *name;
    uint32_t (*run)(uint32_t a, uint32_t b);
} operations[] = {
    { "mul", do_mul }, { "mulh", do_mulh }, { "mulhsu", do_mulhsu }, { "mulhu", do_mulhu }, { "div", do_div },
    { "divu", do_divu }, { "rem", do_rem }, { "remu", do_remu }, { "sra", do_sra }, { "sltu", do_sltu },
};

static const uint32_t edges[] = { 0, 1, 2, 31, 32, 0x7fffffff, 0x80000000, 0x80000001, 0xfffffffe, 0xffffffff };

#define COUNT(list) (sizeof(list) / sizeof *(list))

/* FNV-1a over the bytes of a word. */
static uint32_t add_to_sum(uint32_t sum, uint32_t word)
{
    for (int shift = 0; shift < 32; shift += 8)
        sum = (sum ^ (word >> shift & 255)) * 16777619u;
    return sum;
}

int main(void)
{
    for (uint32_t i = 0; i < COUNT(operations); i++) {
        uint32_t sum = 2166136261u;
        for (uint32_t a = 0; a < COUNT(edges); a++)
            for (uint32_t b = 0; b < COUNT(edges); b++)
                sum = add_to_sum(sum, operations[i].run(edges[a], edges[b]));
        say(operations[i].name);
        say(" ");
        say_hex(sum);
        say("\n");
    }
    say("7 / 0 is ");
    say_hex(do_div(7, 0));
    say(", and the rest ");
    say_hex(do_rem(7, 0));
    say("\n-2^31 / -1 is ");
    say_hex(do_div(0x80000000, 0xffffffff));
    say(", and the rest ");
    say_hex(do_rem(0x80000000, 0xffffffff));
    say("\n");
    return 0;
}
