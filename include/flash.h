/*
 * The flash of the password box, for a program in C or C++ that links target/staticlib/libhost.a
 * (made by `./archives host`, for x86-64 Linux). The archive needs memcpy and memset, and nothing else.
 *
 * Each function returns 0 if it answered, else the number of a refusal. The checks go in the order
 * of the numbers, and the first that fails gives the answer. A refusal changes nothing that was
 * lent, outputs included; only `count` is always written, and is 0 then. After an answer, event
 * words past the count and output bytes past the answer are as they were.
 *
 * The host owes that no pointer is null, not even one to an empty buffer; that each is aligned for
 * its type; and that buffers do not overlap. Lengths are in elements.
 *
 * The lent memory:
 *   record   the state, flash_record_len() bytes. Its layout is the library's own affair, but equal
 *            states have equal bytes.
 *   array    the stored array, FLASH_ARRAY_BYTES bytes.
 *   charges  the charge store, FLASH_CELLS numbers. Each opened page takes the next FLASH_PAGE_CELLS
 *            of them; the others keep what they hold.
 *   events   room for event words. While a pulse is open over k bytes, a call that settles wants k + 1.
 *
 * A time is whole seconds and a fraction in units of 2^-64 s. The last second, 2^64 - 1, is refused.
 */
#ifndef FLASH_H
#define FLASH_H

#ifndef __cplusplus
#include <stdbool.h>
#endif
#include <stddef.h>
#include <stdint.h>

#ifdef __cplusplus
extern "C" {
#endif

#define FLASH_ARRAY_BYTES 49152
#define FLASH_CELLS 393216
#define FLASH_PAGE_BYTES 128
#define FLASH_PAGE_CELLS 1024

/* The charge of a cell that is programmed fully. */
#define FLASH_FULL UINT64_C(12912720851596686100)

/* The addresses of the registers; any other address reads 0. */
#define FLASH_FLMCR1 0xF020
#define FLASH_FLMCR2 0xF021
#define FLASH_FLPWCR 0xF022
#define FLASH_EBR1 0xF023
#define FLASH_FENR 0xF02B

/* What a function returns. */
enum flash_refusal {
    FLASH_ANSWERED = 0,
    FLASH_BAD_FIRMWARE = 1,    /* the firmware is not FLASH_ARRAY_BYTES long */
    FLASH_BAD_LENGTH = 2,      /* record, array or charge store is not of its one length */
    FLASH_BAD_RECORD = 3,      /* the record holds no state that is allowed */
    FLASH_BAD_ADDRESS = 4,     /* an address past the end, a bit over 7, a mode over 5 */
    FLASH_LAST_SECOND = 5,     /* the whole seconds are 2^64 - 1 */
    FLASH_BEFORE_SETTLING = 6, /* the time is before the last settling */
    FLASH_FEW_EVENTS = 7,      /* a pulse over k > 0 bytes is open, and there are fewer than k + 1 words */
    FLASH_SHORT_OUTPUT = 8,    /* the output is too short */
    FLASH_ENDS_EARLY = 9,      /* a snapshot ends before its last field does */
    FLASH_BAD_FIELD = 10,      /* a field of a snapshot holds what it can't */
    FLASH_LEFT_OVER = 11,      /* a snapshot goes on after its last field */
    FLASH_NOT_VALID = 12       /* flash_validate says no to a snapshot's state */
};

/* What an event word is about: kind * 2^32 + address * 2^16 + value or length. */
enum flash_event {
    FLASH_EVENT_BYTE = 1,       /* the byte at the address now reads as the value */
    FLASH_EVENT_COMPLETED = 2,  /* a pulse over length bytes from the address ended in order */
    FLASH_EVENT_INTERRUPTED = 3 /* a pulse over length bytes from the address was cut short */
};

/* The parts of an event word. */
#define FLASH_EVENT_KIND(word) ((uint32_t)((word) >> 32))
#define FLASH_EVENT_ADDRESS(word) ((uint16_t)((word) >> 16))
#define FLASH_EVENT_VALUE(word) ((uint16_t)(word))

/* The number of bytes of a record. It refuses nothing. */
size_t flash_record_len(void);

/* A fresh array that holds the firmware: writes record and array, and leaves the charge store.
 * Refusals 1, 2. */
uint32_t flash_new(const uint8_t *firmware, size_t firmware_len, uint8_t *record, size_t record_len,
                   uint8_t *array, size_t array_len, const uint64_t *charges, size_t charges_len);

/*
 * The calls of the ledger: each is done at its time, may settle an open pulse, and gives event words.
 */

/* Writes a register; while not enabled, none but FENR takes a write. Refusals 2, 3, 5, 6, 7. */
uint32_t flash_write_register(uint8_t *record, size_t record_len, uint8_t *array, size_t array_len,
                              uint64_t *charges, size_t charges_len, uint64_t *events,
                              size_t events_len, uint16_t address, uint8_t value, uint64_t seconds,
                              uint64_t fraction, uint64_t *count);

/* Writes a data byte: latches it, or under verify asks for a sense of its four bytes.
 * Refusals 2 to 7; 4 from C000 hex. */
uint32_t flash_write8(uint8_t *record, size_t record_len, uint8_t *array, size_t array_len,
                      uint64_t *charges, size_t charges_len, uint64_t *events, size_t events_len,
                      uint16_t address, uint8_t value, uint64_t seconds, uint64_t fraction,
                      uint64_t *count);

/* Reads a byte: the stored one, the sensed one, or FF hex; under an open pulse it trips protection.
 * Refusals 2 to 7; 4 from C000 hex. */
uint32_t flash_read8(uint8_t *record, size_t record_len, uint8_t *array, size_t array_len,
                     uint64_t *charges, size_t charges_len, uint64_t *events, size_t events_len,
                     uint16_t address, uint64_t seconds, uint64_t fraction, uint8_t *value,
                     uint64_t *count);

/* Reads a word, high byte first, from any address, odd ones too.
 * Refusals 2 to 7; 4 from BFFF hex. */
uint32_t flash_read16(uint8_t *record, size_t record_len, uint8_t *array, size_t array_len,
                      uint64_t *charges, size_t charges_len, uint64_t *events, size_t events_len,
                      uint16_t address, uint64_t seconds, uint64_t fraction, uint16_t *value,
                      uint64_t *count);

/* Trips protection if a pulse is open, else does nothing. Refusals 2, 3, 5, 6, 7. */
uint32_t flash_protect(uint8_t *record, size_t record_len, uint8_t *array, size_t array_len,
                       uint64_t *charges, size_t charges_len, uint64_t *events, size_t events_len,
                       uint64_t seconds, uint64_t fraction, uint64_t *count);

/* Resets registers and latch; an open pulse is interrupted. Refusals 2, 3, 5, 6, 7. */
uint32_t flash_reset(uint8_t *record, size_t record_len, uint8_t *array, size_t array_len,
                     uint64_t *charges, size_t charges_len, uint64_t *events, size_t events_len,
                     uint64_t seconds, uint64_t fraction, uint64_t *count);

/* Resets, and takes the supply, the oscillator and the module away. Refusals 2, 3, 5, 6, 7. */
uint32_t flash_power_off(uint8_t *record, size_t record_len, uint8_t *array, size_t array_len,
                         uint64_t *charges, size_t charges_len, uint64_t *events, size_t events_len,
                         uint64_t seconds, uint64_t fraction, uint64_t *count);

/* Sets the mode (0 Active, 1 Subactive, 2 Sleep, 3 Subsleep, 4 Watch, 5 Standby) and whether module
 * and oscillator run. Refusals 2 to 7; 4 for a mode over 5. */
uint32_t flash_environment(uint8_t *record, size_t record_len, uint8_t *array, size_t array_len,
                           uint64_t *charges, size_t charges_len, uint64_t *events,
                           size_t events_len, uint8_t mode, bool module, bool oscillator,
                           uint64_t seconds, uint64_t fraction, uint64_t *count);

/*
 * Looking: nothing changes but the output. A look at cells answers as a settling at the time would
 * leave them.
 */

/* What a register reads. Refusals 2, 3. */
uint32_t flash_register(const uint8_t *record, size_t record_len, uint16_t address, uint8_t *value);

/* Whether a read at the time would be served from the stored array, 1 or 0. Refusals 2, 3, 5, 6. */
uint32_t flash_normal(const uint8_t *record, size_t record_len, uint64_t seconds, uint64_t fraction,
                      uint8_t *normal);

/* The byte that the cells hold. Refusals 2 to 6; 4 from C000 hex. */
uint32_t flash_peek(const uint8_t *record, size_t record_len, const uint8_t *array, size_t array_len,
                    const uint64_t *charges, size_t charges_len, uint16_t address, uint64_t seconds,
                    uint64_t fraction, uint8_t *value);

/* The charge of a cell. Refusals 2 to 6; 4 from C000 hex or for a bit over 7. */
uint32_t flash_cell_charge(const uint8_t *record, size_t record_len, const uint8_t *array,
                           size_t array_len, const uint64_t *charges, size_t charges_len,
                           uint16_t address, uint8_t bit, uint64_t seconds, uint64_t fraction,
                           uint64_t *charge);

/* Whether all bytes of the address's page read FF hex, 1 or 0. Refusals 2 to 6; 4 from C000 hex. */
uint32_t flash_blank_page(const uint8_t *record, size_t record_len, const uint8_t *array,
                          size_t array_len, const uint64_t *charges, size_t charges_len,
                          uint16_t address, uint64_t seconds, uint64_t fraction, uint8_t *blank);

/* The bytes that all cells hold, into the first FLASH_ARRAY_BYTES of out. Refusals 2, 3, 5, 6, 8. */
uint32_t flash_image(const uint8_t *record, size_t record_len, const uint8_t *array,
                     size_t array_len, const uint64_t *charges, size_t charges_len,
                     uint64_t seconds, uint64_t fraction, uint8_t *out, size_t out_len);

/*
 * Snapshots: a state as one string of bytes, in the Borsh format. FLASH_SNAPSHOT_BYTES with no charge
 * page, FLASH_SNAPSHOT_PAGE_BYTES more for each, FLASH_SNAPSHOT_PENDING_BYTES more with a pending sense.
 */
#define FLASH_SNAPSHOT_BYTES 49412u
#define FLASH_SNAPSHOT_PAGE_BYTES 8194u
#define FLASH_SNAPSHOT_PENDING_BYTES 18u

/* Whether the state is one that reading a snapshot at the time would accept, 1 or 0. Refusals 2, 3
 * (but not for what it tests itself), 5. */
uint32_t flash_validate(const uint8_t *record, size_t record_len, uint64_t seconds,
                        uint64_t fraction, uint8_t *valid);

/* The snapshot, into the first bytes of out, and how many they are. Refusals 2, 3, 8. */
uint32_t flash_write_snapshot(const uint8_t *record, size_t record_len, const uint8_t *array,
                              size_t array_len, const uint64_t *charges, size_t charges_len,
                              uint8_t *out, size_t out_len, uint64_t *length);

/* The state that a snapshot holds, into record, array and the charge slots that it uses. Refusals 2,
 * 5, 9 (it ends early), 10 (a field that is none), 11 (bytes left over), 12 (flash_validate says no
 * at the time); what the record held before does not matter. */
uint32_t flash_read_snapshot(const uint8_t *bytes, size_t bytes_len, uint8_t *record,
                             size_t record_len, uint8_t *array, size_t array_len, uint64_t *charges,
                             size_t charges_len, uint64_t seconds, uint64_t fraction);

#ifdef __cplusplus
}
#endif

#endif
