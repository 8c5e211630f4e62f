/* One chip of the plain model: its record as a C struct, and what each event does to it. */
#ifndef PLAIN_CHIP_H
#define PLAIN_CHIP_H

#include <stdbool.h>
#include <stdint.h>

#include "toemsakun.h"

/* The part that a kind is, as a bit; 0 for a kind that is not known. */
#define MEMORY 1
#define SWITCH 2
static inline unsigned part_of(unsigned kind) { return kind == TK_DS28EC20 ? MEMORY : kind == TK_DS2413 ? SWITCH : 0; }

/* What a chip is in the middle of; the numbers are those of the record. */
enum step {
    WAITING = 0,
    ROM_COMMAND = 1,
    READ_ROM = 2,
    MATCH_ROM = 3,
    SEARCH_ROM = 4,
    FUNCTION_COMMAND = 5,
    MEMORY_ONES = 16,
    WRITE_ADDRESS = 17,
    WRITE_DATA = 18,
    SEND_CRC = 19,
    READ_REGISTERS = 20,
    READ_PAD = 21,
    COPY_ADDRESS = 22,
    COPY_END = 23,
    COPIED = 24,
    READ_ADDRESS = 25,
    READ_DATA = 26,
    SWITCH_ONES = 32,
    PIO_READ = 33,
    PIO_PAIR = 34,
    PIO_CONFIRM = 35,
    PIO_STATUS = 36
};

/* A chip. On a machine with the low byte first the bytes of this struct are the bytes of a record. */
struct chip {
    uint8_t code[8];
    uint8_t kind;
    uint8_t rc;
    uint16_t t;
    uint8_t es;
    uint8_t latches;
    uint8_t levels;
    uint8_t step;
    uint16_t w;
    uint8_t a;
    uint8_t b;
    uint8_t c;
    uint8_t unused[11];
};

/* Whether the bytes are a record: a step that there is, flags 0 or 1, and 0 in every byte that the step does not use.
 */
bool chip_is_record(const struct chip *chip);

/* Whether the bytes are a record, and every field lies in its range. */
bool chip_in_range(const struct chip *chip);

/* The bit that the chip sends in a slot; 1 where it sends nothing. */
unsigned chip_sends(const struct chip *chip, const uint8_t *image, const uint8_t *pad);

/* A slot of this value. */
void chip_slot(struct chip *chip, unsigned value, uint8_t *image, uint8_t *pad);

/* A reset. */
void chip_reset(struct chip *chip);

/* Power on. */
void chip_power_on(struct chip *chip, uint8_t *pad);

#endif
