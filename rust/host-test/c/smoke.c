/* A fresh chip, a read that is served and one that is refused, and a snapshot, through
 * include/flash.h. */
#include <stdio.h>
#include <stdlib.h>

#include "flash.h"

/* Static, since the charge store is larger than some stacks. */
static uint8_t firmware[FLASH_ARRAY_BYTES], array[FLASH_ARRAY_BYTES];
static uint64_t charges[FLASH_CELLS], events[FLASH_PAGE_BYTES + 1];
static uint8_t snapshot[FLASH_SNAPSHOT_BYTES + 1];

static void expect(bool holds, const char *what) {
    if (!holds) {
        printf("FAILED %s\n", what);
        exit(1);
    }
}

int main(void) {
    const size_t length = flash_record_len(), words = sizeof events / sizeof *events;
    uint8_t *record = malloc(length), blank = 9, valid = 9;
    uint16_t word = 0xA5A5;
    uint64_t count = 99, written = 99;

    expect(length > 0 && record != NULL, "memory for the record");
    firmware[0xBFFE] = 0x12;
    firmware[0xBFFF] = 0x34;
    expect(flash_new(firmware, sizeof firmware, record, length, array, sizeof array, charges,
                     FLASH_CELLS) == FLASH_ANSWERED,
           "fresh chip");
    expect(flash_read16(record, length, array, sizeof array, charges, FLASH_CELLS, events, words,
                        0xBFFE, 0, 0, &word, &count) == FLASH_ANSWERED,
           "word at BFFE");
    expect(word == 0x1234 && count == 0, "high byte first, no events");
    word = 0xA5A5;
    count = 99;
    expect(flash_read16(record, length, array, sizeof array, charges, FLASH_CELLS, events, words,
                        0xBFFF, 0, 0, &word, &count) == FLASH_BAD_ADDRESS,
           "word at BFFF");
    expect(word == 0xA5A5 && count == 0, "output kept, no events");
    expect(flash_environment(record, length, array, sizeof array, charges, FLASH_CELLS, events,
                             words, 0, true, true, 0, 0, &count) == FLASH_ANSWERED,
           "unchanged environment");
    expect(flash_blank_page(record, length, array, sizeof array, charges, FLASH_CELLS, 0xBFFF, 0, 0,
                            &blank) == FLASH_ANSWERED &&
               blank == 0,
           "last page is not blank");
    expect(flash_write_snapshot(record, length, array, sizeof array, charges, FLASH_CELLS, snapshot,
                                sizeof snapshot, &written) == FLASH_ANSWERED &&
               written == FLASH_SNAPSHOT_BYTES,
           "snapshot without charge pages");
    record[0] = 0xFF;
    expect(flash_read_snapshot(snapshot, written + 1, record, length, array, sizeof array, charges,
                               FLASH_CELLS, 0, 0) == FLASH_LEFT_OVER &&
               record[0] == 0xFF,
           "a byte left over");
    expect(flash_read_snapshot(snapshot, written, record, length, array, sizeof array, charges,
                               FLASH_CELLS, 0, 0) == FLASH_ANSWERED,
           "snapshot read back");
    expect(flash_validate(record, length, 0, 0, &valid) == FLASH_ANSWERED && valid == 1,
           "restored state is valid");
    free(record);
    puts("ok");
    return 0;
}
