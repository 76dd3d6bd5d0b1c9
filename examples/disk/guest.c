/* Reads and writes its disk, checks what comes back, and says so. */
#include <stdint.h>

#include "block.h"
#include "console.h"

/* The disk's sectors, and those that are written: the second and the third. */
enum { SECTORS = 4, FIRST_WRITTEN = 1, WRITTEN = 2 };
enum { SECTOR_WORDS = SECTOR_BYTES / 4, TEXT_WORDS = WRITTEN * SECTOR_WORDS };

static struct block disk;
static uint32_t content[SECTORS * SECTOR_WORDS];
static uint32_t text[TEXT_WORDS];

static int said(const char *what, enum block_status status, enum block_status wanted)
{
    say(what);
    if (status != wanted) {
        say(": wrong, ended with ");
        say_number(status);
    } else {
        say(status == BLOCK_OK ? ": done" : ": refused");
    }
    say("\n");
    return status == wanted;
}

/* The first line of the first sector, which the disk is made with. */
static int read_label(void)
{
    if (!said("read sector 0", block_read(&disk, 0, content, SECTOR_BYTES), BLOCK_OK))
        return 0;
    char *label = (char *)content;
    int length = 0;
    while (length < SECTOR_BYTES - 1 && label[length] != '\n')
        length++;
    label[length] = 0;
    say("its label: ");
    say(label);
    say("\n");
    return 1;
}

/* No two words are alike: the factor is odd. */
static void make_text(void)
{
    for (uint32_t place = 0; place < TEXT_WORDS; place++)
        text[place] = (place + 1) * 0x01234567;
}

static int write_text(void)
{
    make_text();
    return said("write sectors 1 and 2", block_write(&disk, FIRST_WRITTEN, text, sizeof text), BLOCK_OK)
        && said("flush", block_flush(&disk), BLOCK_OK);
}

static int is_text(const uint32_t *words)
{
    for (uint32_t place = 0; place < TEXT_WORDS; place++)
        if (words[place] != text[place])
            return 0;
    return 1;
}

/* The sum that the command `sum` tells of a file. */
static uint32_t sum_of(const uint8_t *data, uint32_t bytes)
{
    uint32_t sum = 0;
    for (uint32_t place = 0; place < bytes; place++)
        sum = ((sum >> 1) + ((sum & 1) << 15) + data[place]) & 0xffff;
    return sum;
}

static int read_all(void)
{
    if (!said("read all sectors", block_read(&disk, 0, content, sizeof content), BLOCK_OK))
        return 0;
    if (!is_text(content + FIRST_WRITTEN * SECTOR_WORDS)) {
        say("wrong: sectors 1 and 2 are not as written\n");
        return 0;
    }
    say("sectors 1 and 2 are as written\nsum ");
    say_number(sum_of((const uint8_t *)content, sizeof content));
    say("\n");
    return 1;
}

/* One sector more than the disk has. */
static int read_past_end(void)
{
    return said("read past the end", block_read(&disk, SECTORS - 1, content, 2 * SECTOR_BYTES), BLOCK_IO_ERROR);
}

static int is_right(void)
{
    const char *fault = block_start(&disk, 0, BY_POLLING);
    if (fault) {
        say("wrong: ");
        say(fault);
        say("\n");
        return 0;
    }
    say("a disk of ");
    say_number(block_sectors(&disk));
    say(" sectors\n");
    if (block_sectors(&disk) != SECTORS) {
        say("wrong: another number is wanted\n");
        return 0;
    }
    return read_label() && write_text() && read_all() && read_past_end();
}

int main(void)
{
    say(is_right() ? "all is well\n" : "not well\n");
    return 0;
}
