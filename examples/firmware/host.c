/* A 1-Wire host on a modelled line. */
#include "host.h"

#include <string.h>

/* ---- the lower half: in firmware, a pin and its timing */

bool host_set_up(struct host *host, const uint8_t *card, size_t card_size)
{
    size_t offset;
    int32_t chips = tk_card(card, card_size, host->table, sizeof host->table, &offset);
    if (chips < 0)
        return false;
    host->table_size = tk_table_size((size_t)chips);
    host->images_size = tk_images_size(host->table, host->table_size);
    host->pads_size = tk_pads_size(host->table, host->table_size);
    memset(host->images, 0xFF, host->images_size);
    return host_event(host, TK_POWER_ON, 0, 0) == 1;
}

int32_t host_event(struct host *host, uint32_t event, uint32_t chip, uint32_t levels)
{
    return tk_event(host->table, host->table_size, event, chip, levels, host->images, host->images_size, host->pads,
                    host->pads_size);
}

bool host_reset(struct host *host) { return host_event(host, TK_RESET, 0, 0) == 0; }

unsigned host_slot(struct host *host, unsigned bit)
{
    return host_event(host, bit ? TK_WRITE_1 : TK_WRITE_0, 0, 0) == 1;
}

void host_run(struct host *host, const uint8_t *bits, uint8_t *answers, size_t bytes)
{
    if (tk_slots(host->table, host->table_size, bits, bytes, answers, bytes, 8 * bytes, host->images, host->images_size,
                 host->pads, host->pads_size) < 0)
        memset(answers, 0, bytes);
}

int32_t host_search(struct host *host, uint64_t *codes, size_t places)
{
    uint64_t resets, slots;
    return tk_search(host->table, host->table_size, codes, places, host->images, host->images_size, host->pads,
                     host->pads_size, &resets, &slots);
}

/* ---- bytes and sessions */

void host_write(struct host *host, uint8_t byte)
{
    uint8_t answer;
    host_run(host, &byte, &answer, 1);
}

uint8_t host_read(struct host *host)
{
    const uint8_t ones = 0xFF;
    uint8_t byte;
    host_run(host, &ones, &byte, 1);
    return byte;
}

/* The bytes of the next run: a page at most. */
static size_t next_run(size_t left) { return left < PAGE_SIZE ? left : PAGE_SIZE; }

/* Writes bytes, and adds them to a CRC-16. */
static uint16_t write_bytes(struct host *host, const uint8_t *bytes, size_t size, uint16_t crc)
{
    uint8_t answers[PAGE_SIZE];
    for (size_t at = 0; at < size; at += PAGE_SIZE)
        host_run(host, bytes + at, answers, next_run(size - at));
    return crc16(crc, bytes, size);
}

/* Reads bytes, and adds them to a CRC-16. */
static uint16_t read_bytes(struct host *host, uint8_t *bytes, size_t size, uint16_t crc)
{
    uint8_t ones[PAGE_SIZE];
    memset(ones, 0xFF, sizeof ones);
    for (size_t at = 0; at < size; at += PAGE_SIZE)
        host_run(host, ones, bytes + at, next_run(size - at));
    return crc16(crc, bytes, size);
}

/* Reads a CRC-16, which comes inverted and low byte first; true where it is this one. */
static bool crc_agrees(struct host *host, uint16_t crc)
{
    uint8_t sent[2];
    read_bytes(host, sent, sizeof sent, 0);
    return (sent[0] | sent[1] << 8) == (uint16_t)~crc;
}

bool host_match(struct host *host, const uint8_t code[CODE_SIZE])
{
    bool present = host_reset(host);
    host_write(host, MATCH_ROM);
    write_bytes(host, code, CODE_SIZE, 0);
    return present;
}

bool host_skip(struct host *host)
{
    bool present = host_reset(host);
    host_write(host, SKIP_ROM);
    return present;
}

/* ---- a DS28EC20 */

bool host_write_scratchpad(struct host *host, const uint8_t code[CODE_SIZE], uint16_t address, const uint8_t *bytes,
                           size_t size)
{
    const uint8_t head[3] = {WRITE_SCRATCHPAD, (uint8_t)(address & 0xFF), (uint8_t)(address >> 8)};
    if (!host_match(host, code))
        return false;
    uint16_t crc = write_bytes(host, head, sizeof head, 0);
    crc = write_bytes(host, bytes, size, crc);
    return address % PAGE_SIZE + size < PAGE_SIZE || crc_agrees(host, crc);
}

bool host_read_scratchpad(struct host *host, const uint8_t code[CODE_SIZE], struct scratchpad *read)
{
    const uint8_t command = READ_SCRATCHPAD;
    uint8_t registers[3];
    if (!host_match(host, code))
        return false;
    uint16_t crc = write_bytes(host, &command, 1, 0);
    crc = read_bytes(host, registers, sizeof registers, crc);
    crc = read_bytes(host, read->data, PAGE_SIZE, crc);
    read->ta1 = registers[0];
    read->ta2 = registers[1];
    read->es = registers[2];
    return crc_agrees(host, crc);
}

bool host_copy_scratchpad(struct host *host, const uint8_t code[CODE_SIZE], uint8_t ta1, uint8_t ta2, uint8_t es)
{
    const uint8_t bytes[4] = {COPY_SCRATCHPAD, ta1, ta2, es};
    if (!host_match(host, code))
        return false;
    write_bytes(host, bytes, sizeof bytes, 0);
    return host_read(host) == 0xAA;
}

bool host_read_memory(struct host *host, const uint8_t code[CODE_SIZE], uint16_t address, uint8_t *bytes, size_t size)
{
    const uint8_t head[3] = {READ_MEMORY, (uint8_t)(address & 0xFF), (uint8_t)(address >> 8)};
    if (!host_match(host, code))
        return false;
    write_bytes(host, head, sizeof head, 0);
    read_bytes(host, bytes, size, 0);
    return true;
}

/* ---- a DS2413 */

bool host_switch(struct host *host, const uint8_t code[CODE_SIZE], uint8_t latches, uint8_t *status)
{
    const uint8_t byte = latches | 0xFC;
    const uint8_t bytes[3] = {PIO_ACCESS_WRITE, byte, (uint8_t)~byte};
    if (!host_match(host, code))
        return false;
    write_bytes(host, bytes, sizeof bytes, 0);
    uint8_t sent[2];
    read_bytes(host, sent, sizeof sent, 0);
    *status = sent[1];
    return sent[0] == 0xAA;
}

uint16_t crc16(uint16_t crc, const uint8_t *bytes, size_t size)
{
    for (size_t i = 0; i < size; i++) {
        crc ^= bytes[i];
        for (int bit = 0; bit < 8; bit++)
            crc = (uint16_t)(crc & 1 ? crc >> 1 ^ 0xA001 : crc >> 1);
    }
    return crc;
}
