/* The function level of a DS2413 in the plain model. */
#include "parts.h"

/* The status byte as it is now. */
static uint8_t status(const struct chip *chip)
{
    unsigned pins = chip->latches & chip->levels, latches = chip->latches;
    unsigned low = (pins & 1) | (latches & 1) << 1 | (pins & 2) << 1 | (latches & 2) << 2;
    return (uint8_t)(low | (~low & 0x0F) << 4);
}

/* Begins a step that sends the status. */
static void send_status(struct chip *chip, enum step step)
{
    begin(chip, step);
    chip->b = status(chip);
}

void switch_command(struct chip *chip, uint8_t command)
{
    switch (command) {
    case 0xF5:
        send_status(chip, PIO_READ);
        break;
    case 0x5A:
        begin(chip, PIO_PAIR);
        break;
    default:
        begin(chip, SWITCH_ONES);
    }
}

/* PIO Access Write: the byte and what should be its complement are in. */
static void pair_in(struct chip *chip)
{
    unsigned byte = chip->w & 0xFF, complement = chip->w >> 8;
    if ((byte ^ complement) != 0xFF) {
        begin(chip, SWITCH_ONES);
        return;
    }
    chip->latches = byte & 3;
    begin(chip, PIO_CONFIRM);
}

void switch_slot(struct chip *chip, unsigned value)
{
    switch (chip->step) {
    case PIO_READ:
        if (++chip->a == 8)
            send_status(chip, PIO_READ);
        break;
    case PIO_PAIR:
        if (word_in(chip, value))
            pair_in(chip);
        break;
    case PIO_CONFIRM:
        if (++chip->a == 8)
            send_status(chip, PIO_STATUS);
        break;
    case PIO_STATUS:
        if (++chip->a == 8)
            begin(chip, PIO_PAIR);
        break;
    }
}
