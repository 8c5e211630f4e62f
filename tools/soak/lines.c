/* Lines by chance. */
#include <stdlib.h>
#include <string.h>

#include "chip.h"
#include "parts.h"
#include "random.h"
#include "sessions.h"

/* A code: often near to others, so that chips part late in a search, and sometimes the same. */
static void any_code(uint8_t *code)
{
    for (int i = 0; i < 8; i++)
        code[i] = one_in(3) ? (uint8_t)below(256) : 0x14;
}

/* A record of the same code and kind in any state that is in range. */
static void any_state(uint8_t *record)
{
    static const unsigned most[4] = {1, 8, 32, 256};
    struct chip chip;
    memcpy(&chip, record, sizeof chip);
    do {
        chip.rc = (uint8_t)below(2);
        chip.t = (uint16_t)below(one_in(4) ? 0x10000 : LAST_ADDRESS + 1);
        chip.es = (uint8_t)below(256) & (uint8_t)~BS;
        chip.latches = (uint8_t)below(4);
        chip.levels = (uint8_t)below(4);
        chip.step = (uint8_t)below(PIO_STATUS + 1);
        chip.w = (uint16_t)(one_in(2) ? 0 : below(one_in(2) ? 0x10000 : LAST_ADDRESS + 1));
        chip.a = (uint8_t)below(most[below(4)]);
        chip.b = (uint8_t)below(most[below(4)]);
        chip.c = (uint8_t)below(most[below(4)]);
    } while (!chip_in_range(&chip));
    memcpy(record, &chip, sizeof chip);
}

/* The bytes of an image: erased, with marks at some of its control bytes, or anything. */
static void any_image(uint8_t *image)
{
    static const uint8_t often[4] = {0xFF, 0x55, 0xAA, 0x00};
    int erased = one_in(2);
    for (unsigned i = 0; i < TK_IMAGE_SIZE; i++)
        image[i] = (uint8_t)(erased ? 0xFF : below(256));
    if (one_in(2))
        for (unsigned i = 0x0A00; i < 0x0A20; i++)
            image[i] = often[below(4)];
}

void any_line(struct line *line)
{
    uint8_t card[TK_MOST_CHIPS * 12] = {0};
    size_t offset, chips = one_in(4) ? below(3) : below(TK_MOST_CHIPS + 1);
    unsigned switches = below(5);
    for (size_t i = 0; i < chips; i++) {
        card[12 * i] = 10;
        card[12 * i + 2] = below(4) < switches ? TK_DS2413 : TK_DS28EC20;
        any_code(card + 12 * i + 4);
    }
    memset(line, 0, sizeof *line);
    if (tk_card(card, 12 * chips, line->table, sizeof line->table, &offset) != (int32_t)chips)
        exit(2);
    line->chips = chips;
    line->table_size = tk_table_size(chips);
    line->images_size = tk_images_size(line->table, line->table_size);
    line->pads_size = tk_pads_size(line->table, line->table_size);
    for (size_t at = 0; at < line->images_size; at += TK_IMAGE_SIZE)
        any_image(line->images + at);
    for (size_t at = 0; at < line->pads_size; at++)
        line->pads[at] = (uint8_t)below(256);
    if (one_in(2))
        for (size_t i = 0; i < chips; i++)
            any_state(line->table + i * TK_RECORD_SIZE);
}
