/* The plain model's line: its events, and the functions of toemsakun.h over the bytes that a caller lends. */
#include "plain.h"

#include <string.h>

#include "line.h"

_Static_assert(sizeof(struct chip) == TK_RECORD_SIZE, "a chip is as long as its record");
_Static_assert(__BYTE_ORDER__ == __ORDER_LITTLE_ENDIAN__, "numbers in a record have the low byte first");

/* ---- a line in structs */

/* A slot in which the host writes a bit: its value, which every chip then takes. */
static unsigned line_slot(struct plain_line *line, unsigned host)
{
    unsigned value = host;
    uint8_t *image = line->images, *pad = line->pads;
    for (size_t i = 0; i < line->count; i++) {
        value &= chip_sends(&line->chips[i], image, pad);
        if (part_of(line->chips[i].kind) == MEMORY)
            image += TK_IMAGE_SIZE, pad += TK_PAD_SIZE;
    }
    image = line->images, pad = line->pads;
    for (size_t i = 0; i < line->count; i++) {
        chip_slot(&line->chips[i], value, image, pad);
        if (part_of(line->chips[i].kind) == MEMORY)
            image += TK_IMAGE_SIZE, pad += TK_PAD_SIZE;
    }
    return value;
}

/* A reset: 0 where a chip is there. */
static unsigned line_reset(struct plain_line *line)
{
    for (size_t i = 0; i < line->count; i++)
        chip_reset(&line->chips[i]);
    return line->count == 0;
}

/* Power on of every chip. */
static void line_power_on(struct plain_line *line)
{
    uint8_t *pad = line->pads;
    for (size_t i = 0; i < line->count; i++) {
        chip_power_on(&line->chips[i], pad);
        if (part_of(line->chips[i].kind) == MEMORY)
            pad += TK_PAD_SIZE;
    }
}

int32_t plain_line_event(struct plain_line *line, uint32_t event, uint32_t chip, uint32_t levels)
{
    switch (event) {
    case TK_WRITE_0:
    case TK_WRITE_1:
        return (int32_t)line_slot(line, event);
    case TK_RESET:
        return (int32_t)line_reset(line);
    case TK_POWER_ON:
        line_power_on(line);
        return 1;
    case TK_LEVELS:
        if (chip >= line->count || part_of(line->chips[chip].kind) != SWITCH || levels > 3)
            return -TK_NO_SUCH_LEVELS;
        line->chips[chip].levels = (uint8_t)levels;
        return 1;
    default:
        return -TK_NO_SUCH_EVENT;
    }
}

/* ---- a line in the caller's bytes */

/* How many records of DS28EC20 a table has, or none where its bytes are no records. */
static size_t memories(const uint8_t *table, size_t table_size)
{
    if (table_size % TK_RECORD_SIZE != 0 || table_size > TK_MOST_CHIPS * TK_RECORD_SIZE)
        return 0;
    size_t found = 0;
    for (size_t at = 0; at < table_size; at += TK_RECORD_SIZE) {
        struct chip chip;
        memcpy(&chip, table + at, sizeof chip);
        if (!chip_is_record(&chip))
            return 0;
        found += part_of(chip.kind) == MEMORY;
    }
    return found;
}

int32_t plain_line_take(struct plain_line *line, const uint8_t *table, size_t table_size, uint8_t *images,
                        size_t images_size, uint8_t *pads, size_t pads_size)
{
    if (table_size % TK_RECORD_SIZE != 0 || table_size > sizeof line->chips)
        return -TK_OUT_OF_RANGE;
    line->count = table_size / TK_RECORD_SIZE;
    line->images = images;
    line->pads = pads;
    memcpy(line->chips, table, table_size);
    size_t found = 0;
    for (size_t i = 0; i < line->count; i++) {
        if (!chip_in_range(&line->chips[i]))
            return -TK_OUT_OF_RANGE;
        found += part_of(line->chips[i].kind) == MEMORY;
    }
    bool fits = images_size == found * TK_IMAGE_SIZE && pads_size == found * TK_PAD_SIZE;
    return fits ? 0 : -TK_WRONG_SIZE;
}

size_t plain_table_size(size_t chips) { return (chips < TK_MOST_CHIPS ? chips : TK_MOST_CHIPS) * TK_RECORD_SIZE; }

size_t plain_images_size(const uint8_t *table, size_t table_size)
{
    return memories(table, table_size) * TK_IMAGE_SIZE;
}

size_t plain_pads_size(const uint8_t *table, size_t table_size) { return memories(table, table_size) * TK_PAD_SIZE; }

/* The refusal of the record at the front of what is left of a card, or 0. */
static int32_t card_refusal(const uint8_t *record, size_t left, bool full)
{
    if (left < 4)
        return TK_WRONG_LENGTH;
    unsigned length = record[0] | record[1] << 8, kind = record[2] | record[3] << 8;
    if (part_of(kind) == 0)
        return TK_UNKNOWN_KIND;
    if (length != 10 || left < 12)
        return TK_WRONG_LENGTH;
    return full ? TK_TOO_MANY : 0;
}

int32_t plain_card(const uint8_t *card, size_t card_size, uint8_t *table, size_t table_size, size_t *offset)
{
    struct chip chips[TK_MOST_CHIPS];
    size_t places = table_size / TK_RECORD_SIZE, count = 0;
    if (places > TK_MOST_CHIPS)
        places = TK_MOST_CHIPS;
    for (size_t at = 0; at < card_size; at += 12, count++) {
        int32_t refusal = card_refusal(card + at, card_size - at, count == places);
        if (refusal != 0) {
            *offset = at;
            return -refusal;
        }
        chips[count] = (struct chip){.kind = card[at + 2], .es = 0x20, .latches = 3, .levels = 3};
        memcpy(chips[count].code, card + at + 4, 8);
    }
    memcpy(table, chips, count * TK_RECORD_SIZE);
    *offset = 0;
    return (int32_t)count;
}

int32_t plain_event(uint8_t *table, size_t table_size, uint32_t event, uint32_t chip, uint32_t levels, uint8_t *images,
                    size_t images_size, uint8_t *pads, size_t pads_size)
{
    struct plain_line line;
    int32_t answer = plain_line_take(&line, table, table_size, images, images_size, pads, pads_size);
    if (answer < 0)
        return answer;
    answer = plain_line_event(&line, event, chip, levels);
    if (answer >= 0)
        memcpy(table, line.chips, table_size);
    return answer;
}

/* Up to eight slots, whose host bits stand in a byte: their values in a byte. */
static uint8_t byte_of_slots(struct plain_line *line, uint8_t bits, size_t slots)
{
    unsigned values = 0;
    for (size_t i = 0; i < slots && i < 8; i++)
        values |= (unsigned)plain_line_event(line, bits >> i & 1, 0, 0) << i;
    return (uint8_t)values;
}

int32_t plain_slots(uint8_t *table, size_t table_size, const uint8_t *bits, size_t bits_size, uint8_t *answers,
                    size_t answers_size, size_t slots, uint8_t *images, size_t images_size, uint8_t *pads,
                    size_t pads_size)
{
    struct plain_line line;
    int32_t refusal = plain_line_take(&line, table, table_size, images, images_size, pads, pads_size);
    if (refusal < 0)
        return refusal;
    if (slots > TK_MOST_SLOTS || bits_size != (slots + 7) / 8 || answers_size != bits_size)
        return -TK_WRONG_SIZE;
    for (size_t at = 0; at < bits_size; at++)
        answers[at] = byte_of_slots(&line, bits[at], slots - 8 * at);
    memcpy(table, line.chips, table_size);
    return (int32_t)slots;
}
