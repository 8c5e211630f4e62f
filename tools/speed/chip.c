/* One chip of the plain model: the ROM level, and each event by kind and step. */
#include "chip.h"

#include <string.h>

#include "parts.h"
#include "toemsakun.h"

/* A whole ROM command. */
static void rom_command(struct chip *chip, uint8_t command)
{
    switch (command) {
    case 0x33:
        chip->rc = 0;
        begin(chip, READ_ROM);
        break;
    case 0x55:
        chip->rc = 0;
        begin(chip, MATCH_ROM);
        break;
    case 0xF0:
        chip->rc = 0;
        begin(chip, SEARCH_ROM);
        break;
    case 0xCC:
        chip->rc = 0;
        begin(chip, FUNCTION_COMMAND);
        break;
    case 0xA5:
        begin(chip, chip->rc ? FUNCTION_COMMAND : WAITING);
        break;
    default:
        begin(chip, WAITING);
    }
}

/* Compares a bit that was taken; after the 64th that agrees RC is 1. */
static void compare(struct chip *chip, unsigned value)
{
    if (value != bit_at(chip->code, chip->a)) {
        begin(chip, WAITING);
    } else if (++chip->a == 64) {
        chip->rc = 1;
        begin(chip, FUNCTION_COMMAND);
    } else {
        chip->b = 0;
    }
}

unsigned chip_sends(const struct chip *chip, const uint8_t *image, const uint8_t *pad)
{
    uint8_t registers[3] = {chip->t & 0xFF, (uint8_t)(chip->t >> 8), chip->es};
    switch (chip->step) {
    case READ_ROM:
        return bit_at(chip->code, chip->a);
    case SEARCH_ROM:
        return chip->b == 2 ? 1 : bit_at(chip->code, chip->a) ^ chip->b;
    case SEND_CRC:
        return ~(unsigned)chip->w >> chip->a & 1;
    case READ_REGISTERS:
        return bit_at(registers, chip->a);
    case READ_PAD:
        return pad[chip->a] >> chip->b & 1;
    case COPIED:
        return chip->a;
    case READ_DATA:
        return image[chip->w] >> chip->a & 1;
    case PIO_READ:
    case PIO_STATUS:
        return chip->b >> chip->a & 1;
    case PIO_CONFIRM:
        return 0xAA >> chip->a & 1;
    default:
        return 1;
    }
}

/* A slot at the ROM level. */
static void rom_slot(struct chip *chip, unsigned value)
{
    switch (chip->step) {
    case ROM_COMMAND:
        if (byte_in(chip, value))
            rom_command(chip, chip->b);
        break;
    case READ_ROM:
        if (++chip->a == 64)
            begin(chip, FUNCTION_COMMAND);
        break;
    case MATCH_ROM:
        compare(chip, value);
        break;
    case SEARCH_ROM:
        if (chip->b == 2)
            compare(chip, value);
        else
            chip->b++;
        break;
    case FUNCTION_COMMAND:
        if (byte_in(chip, value)) {
            if (part_of(chip->kind) == MEMORY)
                memory_command(chip, chip->b);
            else
                switch_command(chip, chip->b);
        }
        break;
    }
}

void chip_slot(struct chip *chip, unsigned value, uint8_t *image, uint8_t *pad)
{
    if (chip->step < MEMORY_ONES)
        rom_slot(chip, value);
    else if (chip->step < SWITCH_ONES)
        memory_slot(chip, value, image, pad);
    else
        switch_slot(chip, value);
}

void chip_reset(struct chip *chip)
{
    if (chip->step == WRITE_DATA && chip->b > 0)
        chip->es |= PF;
    /* A short address sets PF too, which is a rule of the DS28EC20. */
    if (chip->step == WRITE_ADDRESS && part_of(chip->kind) == MEMORY)
        chip->es |= PF;
    begin(chip, ROM_COMMAND);
}

void chip_power_on(struct chip *chip, uint8_t *pad)
{
    chip->rc = 0;
    if (part_of(chip->kind) == MEMORY) {
        chip->t = 0;
        chip->es = PF;
        memset(pad, 0xFF, TK_PAD_SIZE);
    } else {
        chip->latches = 3;
    }
    begin(chip, WAITING);
}
