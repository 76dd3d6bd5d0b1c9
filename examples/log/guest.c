/* Keeps a log on its disk, and reads it again after it has reset the disk as after a crash: what was written is there, what was not is not. */
#include "block.h"
#include "console.h"
#include "memory.h"

enum { RECORDS_A_SECTOR = 16, SECTORS = 8, RECORD_MARK = 0x676f6c };

/* An entry of the log. Its sum is of all words before it. */
struct record {
    uint32_t mark;
    uint32_t number;
    uint32_t value;
    uint32_t reserved[4];
    uint32_t sum;
};

static struct block disk;
static struct record sector[RECORDS_A_SECTOR];

/* How many records were appended, of which the last few may not be on the disk yet. */
static uint32_t appended;

static uint32_t sum_of(const struct record *record)
{
    const uint32_t *words = (const uint32_t *)record;
    uint32_t sum = 1;
    for (uint32_t place = 0; place < sizeof *record / 4 - 1; place++)
        sum = sum * 31 + words[place];
    return sum;
}

static int is_record(const struct record *record, uint32_t number)
{
    return record->mark == RECORD_MARK && record->number == number && record->sum == sum_of(record);
}

static void must(enum block_status status)
{
    if (status != BLOCK_OK)
        say("the disk refuses\n");
}

/* The sector with the newest records goes to the disk. */
static void write_newest(void)
{
    must(block_write(&disk, (appended - 1) / RECORDS_A_SECTOR, sector, sizeof sector));
    must(block_flush(&disk));
}

/* A record goes to the disk when its sector is full. */
static void append(uint32_t value)
{
    struct record *record = &sector[appended % RECORDS_A_SECTOR];
    if (record == sector)
        memset(sector, 0, sizeof sector);
    record->mark = RECORD_MARK;
    record->number = appended;
    record->value = value;
    record->sum = sum_of(record);
    appended++;
    if (appended % RECORDS_A_SECTOR == 0)
        write_newest();
}

static void start(void)
{
    const char *fault = block_start(&disk, 0, BY_INTERRUPT);
    if (fault) {
        say(fault);
        say("\n");
    }
}

/* Forgets all and begins anew from what is on the disk: the log ends before the first record that is none. */
static void recover(void)
{
    memset(sector, 0, sizeof sector);
    appended = 0;
    start();
    for (uint32_t place = 0; place < SECTORS; place++) {
        must(block_read(&disk, place, sector, sizeof sector));
        for (uint32_t i = 0; i < RECORDS_A_SECTOR; i++) {
            if (!is_record(&sector[i], appended))
                return;
            appended++;
        }
    }
}

static void tell(const char *what)
{
    say(what);
    say_number(appended);
    say("\n");
}

int main(void)
{
    start();
    for (uint32_t value = 0; value < 40; value++)
        append(value * value);
    tell("records appended: ");
    recover();
    tell("records after a reset: ");
    for (uint32_t value = 0; value < 10; value++)
        append(value);
    write_newest();
    tell("records appended, and written: ");
    recover();
    tell("records after a reset: ");
    return 0;
}
