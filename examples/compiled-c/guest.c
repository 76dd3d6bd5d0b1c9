/* The CRC-32 of nine digits, whose value is known: 0xcbf43926 (the check value of CRC-32 as Ethernet has it). */
#include <stdint.h>

static const uint8_t digits[9] = { '1', '2', '3', '4', '5', '6', '7', '8', '9' };
static uint32_t table[256];

static void make_table(void)
{
    for (uint32_t byte = 0; byte < 256; byte++) {
        uint32_t value = byte;
        for (int bit = 0; bit < 8; bit++)
            value = value & 1 ? value >> 1 ^ 0xedb88320 : value >> 1;
        table[byte] = value;
    }
}

static uint32_t crc_of(const uint8_t *bytes, int count)
{
    uint32_t crc = 0xffffffff;
    for (int i = 0; i < count; i++)
        crc = crc >> 8 ^ table[(crc ^ bytes[i]) & 0xff];
    return ~crc;
}

/* The power is turned off where the sum is the known one. Where it is not, the guest stays here. */
int main(void)
{
    make_table();
    if (crc_of(digits, 9) != 0xcbf43926)
        for (;;)
            ;
    return 0;
}
