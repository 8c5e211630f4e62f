/* What the parts of a chip share: registers that fill bit by bit, the CRC-16, and one function level for each kind. */
#ifndef PLAIN_PARTS_H
#define PLAIN_PARTS_H

#include "chip.h"

#define PF 0x20
#define BS 0x40
#define AA 0x80
#define LAST_ADDRESS 0x0A3F

/* The bit at a place of bytes, least significant first. */
static inline unsigned bit_at(const uint8_t *bytes, unsigned place) { return bytes[place / 8] >> place % 8 & 1; }

/* CRC-16 after one more byte. */
static inline uint16_t crc_after(uint16_t crc, uint8_t byte)
{
    crc ^= byte;
    for (int i = 0; i < 8; i++)
        crc = crc & 1 ? crc >> 1 ^ 0xA001 : crc >> 1;
    return crc;
}

/* Begins a step, with nothing taken or sent yet. */
static inline void begin(struct chip *chip, enum step step)
{
    chip->step = (uint8_t)step;
    chip->w = 0;
    chip->a = chip->b = chip->c = 0;
}

/* Takes a bit into b, counted by a; whether these are eight now. */
static inline bool byte_in(struct chip *chip, unsigned value)
{
    chip->b = (uint8_t)(chip->b >> 1 | value << 7);
    return ++chip->a == 8;
}

/* Takes a bit into w, counted by a; whether these are sixteen now. */
static inline bool word_in(struct chip *chip, unsigned value)
{
    chip->w = (uint16_t)(chip->w >> 1 | value << 15);
    return ++chip->a == 16;
}

/* A function command of a DS28EC20, and a slot after it. */
void memory_command(struct chip *chip, uint8_t command);
void memory_slot(struct chip *chip, unsigned value, uint8_t *image, uint8_t *pad);

/* A function command of a DS2413, and a slot after it. */
void switch_command(struct chip *chip, uint8_t command);
void switch_slot(struct chip *chip, unsigned value);

#endif
