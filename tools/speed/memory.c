/* The function level of a DS28EC20 in the plain model. */
#include "parts.h"
#include "toemsakun.h"

#define CONTROLS 0x0A00
#define LAST_CONTROL 0x0A09
#define BLOCK_LOCK 0x0A1E
#define PAGE_LOCK 0x0A1F
#define READ_ONLY 0x0A20

/* A mark is 55h or AAh. */
static bool is_mark(uint8_t byte) { return byte == 0x55 || byte == 0xAA; }

/* The rule of a byte: what a byte sent to an address becomes. */
static uint8_t ruled(const uint8_t *image, unsigned address, uint8_t sent)
{
    if (address > LAST_ADDRESS)
        return sent;
    uint8_t old = image[address];
    if (address >= READ_ONLY)
        return old;
    if (address >= CONTROLS) {
        bool guard = address <= LAST_CONTROL || address == BLOCK_LOCK || address == PAGE_LOCK;
        return guard && is_mark(old) ? old : sent;
    }
    switch (image[CONTROLS + address / 256]) {
    case 0x55:
        return old;
    case 0xAA:
        return old & sent;
    default:
        return sent;
    }
}

/* Whether the page that starts at this address is closed to copying. */
static bool is_closed(const uint8_t *image, unsigned page)
{
    if (page >= READ_ONLY)
        return true;
    if (page == CONTROLS)
        return is_mark(image[PAGE_LOCK]);
    return image[CONTROLS + page / 256] == 0x55 && is_mark(image[BLOCK_LOCK]);
}

void memory_command(struct chip *chip, uint8_t command)
{
    switch (command) {
    case 0x0F:
        begin(chip, WRITE_ADDRESS);
        break;
    case 0xAA:
        begin(chip, READ_REGISTERS);
        break;
    case 0x55:
        begin(chip, COPY_ADDRESS);
        break;
    case 0xF0:
        begin(chip, READ_ADDRESS);
        break;
    default:
        begin(chip, MEMORY_ONES);
    }
}

/* Sends the CRC-16 that was summed up. */
static void send_crc(struct chip *chip, uint16_t crc)
{
    begin(chip, SEND_CRC);
    chip->w = crc;
}

/* Write Scratchpad: the address is in. */
static void write_address(struct chip *chip)
{
    uint16_t t = chip->w;
    chip->t = t;
    chip->es = t % TK_PAD_SIZE;
    begin(chip, WRITE_DATA);
    chip->a = t % TK_PAD_SIZE;
    chip->w = crc_after(crc_after(crc_after(0, 0x0F), t & 0xFF), (uint8_t)(t >> 8));
}

/* Write Scratchpad: one bit of data. */
static void write_data(struct chip *chip, unsigned value, const uint8_t *image, uint8_t *pad)
{
    chip->c = (uint8_t)(chip->c >> 1 | value << 7);
    if (++chip->b < 8)
        return;
    unsigned page = chip->t / TK_PAD_SIZE * TK_PAD_SIZE;
    pad[chip->a] = ruled(image, page + chip->a, chip->c);
    chip->es = (uint8_t)((chip->es & ~0x1F) | chip->a);
    chip->w = crc_after(chip->w, chip->c);
    chip->b = chip->c = 0;
    if (++chip->a == TK_PAD_SIZE)
        send_crc(chip, chip->w);
}

/* Read Scratchpad: TA1, TA2 and E/S are sent. */
static void registers_sent(struct chip *chip)
{
    uint16_t crc = crc_after(crc_after(0, 0xAA), chip->t & 0xFF);
    begin(chip, READ_PAD);
    chip->a = chip->t % TK_PAD_SIZE;
    chip->w = crc_after(crc_after(crc, (uint8_t)(chip->t >> 8)), chip->es);
}

/* Read Scratchpad: one bit of data is sent. */
static void pad_sent(struct chip *chip, const uint8_t *pad)
{
    if (++chip->b < 8)
        return;
    chip->w = crc_after(chip->w, pad[chip->a]);
    chip->b = 0;
    if (++chip->a == TK_PAD_SIZE)
        send_crc(chip, chip->w);
}

/* Copy Scratchpad: all three bytes are in. */
static void copy(struct chip *chip, uint8_t *image, const uint8_t *pad)
{
    unsigned page = chip->t / TK_PAD_SIZE * TK_PAD_SIZE;
    if (chip->w != chip->t || chip->b != chip->es || chip->es & PF || is_closed(image, page)) {
        begin(chip, MEMORY_ONES);
        return;
    }
    uint8_t after[TK_PAD_SIZE];
    unsigned first = chip->t % TK_PAD_SIZE, last = chip->es & 0x1F;
    for (unsigned i = first; i <= last; i++)
        after[i] = ruled(image, page + i, pad[i]);
    for (unsigned i = first; i <= last; i++)
        image[page + i] = after[i];
    chip->es |= AA;
    begin(chip, COPIED);
}

/* Read Memory: goes on at an address. */
static void read_at(struct chip *chip, uint16_t address)
{
    begin(chip, address <= LAST_ADDRESS ? READ_DATA : MEMORY_ONES);
    if (address <= LAST_ADDRESS)
        chip->w = address;
}

void memory_slot(struct chip *chip, unsigned value, uint8_t *image, uint8_t *pad)
{
    uint16_t address;
    switch (chip->step) {
    case WRITE_ADDRESS:
        if (word_in(chip, value))
            write_address(chip);
        break;
    case WRITE_DATA:
        write_data(chip, value, image, pad);
        break;
    case SEND_CRC:
        if (++chip->a == 16)
            begin(chip, MEMORY_ONES);
        break;
    case READ_REGISTERS:
        if (++chip->a == 24)
            registers_sent(chip);
        break;
    case READ_PAD:
        pad_sent(chip, pad);
        break;
    case COPY_ADDRESS:
        if (word_in(chip, value)) {
            address = chip->w;
            begin(chip, COPY_END);
            chip->w = address;
        }
        break;
    case COPY_END:
        if (byte_in(chip, value))
            copy(chip, image, pad);
        break;
    case COPIED:
        chip->a ^= 1;
        break;
    case READ_ADDRESS:
        if (word_in(chip, value))
            read_at(chip, chip->w);
        break;
    case READ_DATA:
        if (++chip->a == 8)
            read_at(chip, chip->w + 1);
        break;
    }
}
