/* Which bytes are a record, and which records are in range, in the plain model. */
#include <string.h>

#include "parts.h"
#include "toemsakun.h"

/* The parts that a step belongs to, as bits; 0 for a number that is no step. */
#define ANY (MEMORY | SWITCH)

/* What a step uses, by the most that each field may be; a field that it does not use is 0. */
struct shape {
    uint8_t parts;
    uint16_t w;
    uint8_t a;
    uint8_t b;
    uint8_t c;
};

static const struct shape shapes[PIO_STATUS + 1] = {
    [WAITING] = {ANY, 0, 0, 0, 0},
    [ROM_COMMAND] = {ANY, 0, 7, 0xFF, 0},
    [READ_ROM] = {ANY, 0, 63, 0, 0},
    [MATCH_ROM] = {ANY, 0, 63, 0, 0},
    [SEARCH_ROM] = {ANY, 0, 63, 2, 0},
    [FUNCTION_COMMAND] = {ANY, 0, 7, 0xFF, 0},
    [MEMORY_ONES] = {MEMORY, 0, 0, 0, 0},
    [WRITE_ADDRESS] = {MEMORY, 0xFFFF, 15, 0, 0},
    [WRITE_DATA] = {MEMORY, 0xFFFF, 31, 7, 0xFF},
    [SEND_CRC] = {MEMORY, 0xFFFF, 15, 0, 0},
    [READ_REGISTERS] = {MEMORY, 0, 23, 0, 0},
    [READ_PAD] = {MEMORY, 0xFFFF, 31, 7, 0},
    [COPY_ADDRESS] = {MEMORY, 0xFFFF, 15, 0, 0},
    [COPY_END] = {MEMORY, 0xFFFF, 7, 0xFF, 0},
    [COPIED] = {MEMORY, 0, 1, 0, 0},
    [READ_ADDRESS] = {MEMORY, 0xFFFF, 15, 0, 0},
    [READ_DATA] = {MEMORY, LAST_ADDRESS, 7, 0, 0},
    [SWITCH_ONES] = {SWITCH, 0, 0, 0, 0},
    [PIO_READ] = {SWITCH, 0, 7, 0xFF, 0},
    [PIO_PAIR] = {SWITCH, 0xFFFF, 15, 0, 0},
    [PIO_CONFIRM] = {SWITCH, 0, 7, 0, 0},
    [PIO_STATUS] = {SWITCH, 0, 7, 0xFF, 0},
};

/* Whether the bytes after the fields are 0: the first eight and the last eight of them, as two numbers. */
static bool rest_is_zero(const struct chip *chip)
{
    uint64_t first, last;
    _Static_assert(sizeof chip->unused > sizeof first && sizeof chip->unused <= 2 * sizeof first, "two numbers hold all");
    memcpy(&first, chip->unused, sizeof first);
    memcpy(&last, chip->unused + sizeof chip->unused - sizeof last, sizeof last);
    return (first | last) == 0;
}

bool chip_is_record(const struct chip *chip)
{
    if (chip->step > PIO_STATUS || shapes[chip->step].parts == 0 || chip->rc > 1 || !rest_is_zero(chip))
        return false;
    const struct shape *shape = &shapes[chip->step];
    if (chip->step == COPIED && chip->a > shape->a)
        return false;
    return (shape->w > 0 || chip->w == 0) && (shape->a > 0 || chip->a == 0) && (shape->b > 0 || chip->b == 0) &&
           (shape->c > 0 || chip->c == 0);
}

bool chip_in_range(const struct chip *chip)
{
    if (chip->step > PIO_STATUS)
        return false;
    const struct shape *shape = &shapes[chip->step];
    return (shape->parts & part_of(chip->kind)) != 0 && chip->rc <= 1 && (chip->es & BS) == 0 && chip->latches <= 3 &&
           chip->levels <= 3 && chip->w <= shape->w && chip->a <= shape->a && chip->b <= shape->b &&
           chip->c <= shape->c && rest_is_zero(chip);
}
