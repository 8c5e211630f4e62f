/* The record of a chip after known histories, field by field as the header lays it out. */
#include "check.h"

static struct host host;

/* What a step needs to go on. */
struct step {
    uint8_t number;
    uint16_t w;
    uint8_t a, b, c;
};

/* Whether the record of a chip has this step and 0 after it. */
static bool is_at(size_t chip, struct step step)
{
    const uint8_t *record = host.table + chip * TK_RECORD_SIZE;
    const uint8_t want[9] = {step.number, (uint8_t)(step.w & 0xFF), (uint8_t)(step.w >> 8), step.a, step.b, step.c};
    return memcmp(record + 15, want, sizeof want) == 0;
}

/* Counts a check of the first chip's step. */
#define AT(name, ...) check(name, is_at(0, (struct step){__VA_ARGS__}))

/* Writes the low bits of a byte. */
static void bits(unsigned byte, int count)
{
    for (int i = 0; i < count; i++)
        host_slot(&host, byte >> i & 1);
}

/* Whether T, E/S and RC of the first chip are these. */
static bool registers_are(uint16_t t, uint8_t es, uint8_t rc)
{
    return host.table[9] == rc && (host.table[10] | host.table[11] << 8) == t && host.table[12] == es;
}

static void test_rom_steps(void)
{
    static const uint8_t first[CODE_SIZE] = {1};
    set_up(&host, "12");
    AT("power on: waiting", 0, 0, 0, 0, 0);
    host_reset(&host);
    AT("a reset: ROM command", 1, 0, 0, 0, 0);
    check("a reset: the other chip too", is_at(1, (struct step){1, 0, 0, 0, 0}));
    bits(0xCC, 3);
    AT("ROM command: three bits from the top", 1, 0, 3, 0x80, 0);
    host_reset(&host);
    host_write(&host, 0x33);
    AT("33h: Read ROM", 2, 0, 0, 0, 0);
    bits(0xFF, 5);
    AT("33h: place 5", 2, 0, 5, 0, 0);
    host_reset(&host);
    host_write(&host, MATCH_ROM);
    AT("55h: Match ROM", 3, 0, 0, 0, 0);
    bits(0x01, 6);
    AT("55h: place 6", 3, 0, 6, 0, 0);
    check("55h: the other chip waits", is_at(1, (struct step){0, 0, 0, 0, 0}));
    host_reset(&host);
    host_write(&host, 0xF0);
    AT("F0h: Search ROM, the bit", 4, 0, 0, 0, 0);
    host_slot(&host, 1);
    AT("F0h: its complement", 4, 0, 0, 1, 0);
    host_slot(&host, 1);
    AT("F0h: the bit to take", 4, 0, 0, 2, 0);
    host_slot(&host, 1);
    AT("F0h: the next place", 4, 0, 1, 0, 0);
    host_match(&host, first);
    AT("a match: function command", 5, 0, 0, 0, 0);
    check("a match: RC 1", registers_are(0, 0x20, 1));
    bits(0x0F, 6);
    AT("function command: six bits from the top", 5, 0, 6, 0x3C, 0);
    SKIP(&host, 0x99);
    AT("a memory's other function", 16, 0, 0, 0, 0);
    check("a switch's other function", is_at(1, (struct step){32, 0, 0, 0, 0}));
    check("CCh: RC 0", registers_are(0, 0x20, 0));
}

static void test_scratchpad_steps(void)
{
    static const uint8_t head[3] = {WRITE_SCRATCHPAD, 0x3E, 0x01}, data[2] = {0x12, 0x34};
    uint16_t crc = crc16(0, head, 3);
    set_up(&host, "1");
    SKIP(&host, WRITE_SCRATCHPAD);
    bits(0x3E, 4);
    AT("0Fh: address, four bits", 17, 0xE000, 4, 0, 0);
    SKIP(&host, WRITE_SCRATCHPAD, 0x3E, 0x01);
    AT("0Fh: data from offset 30", 18, crc, 30, 0, 0);
    check("0Fh: T and E/S", registers_are(0x013E, 0x1E, 0));
    host_write(&host, 0x12);
    bits(0x34, 3);
    AT("0Fh: offset 31, three bits", 18, crc16(crc, data, 1), 31, 3, 0x80);
    check("0Fh: E 30", registers_are(0x013E, 0x1E, 0) && host.pads[30] == 0x12);
    bits(0x34 >> 3, 5);
    crc = crc16(crc, data, 2);
    AT("0Fh: CRC-16", 19, crc, 0, 0, 0);
    check("0Fh: E 31", registers_are(0x013E, 0x1F, 0) && host.pads[31] == 0x34);
    bits(0xFF, 7);
    AT("0Fh: CRC-16, place 7", 19, crc, 7, 0, 0);
    bits(0x1FF, 9);
    AT("0Fh: nothing more", 16, 0, 0, 0, 0);
    const uint8_t sent[4] = {READ_SCRATCHPAD, 0x3E, 0x01, 0x1F};
    SKIP(&host, READ_SCRATCHPAD);
    AT("AAh: registers", 20, 0, 0, 0, 0);
    bits(0x1FFFF, 17);
    AT("AAh: registers, place 17", 20, 0, 17, 0, 0);
    bits(0x7F, 7);
    AT("AAh: data from offset 30", 21, crc16(0, sent, 4), 30, 0, 0);
    bits(0x7FF, 11);
    AT("AAh: offset 31, place 3", 21, crc16(crc16(0, sent, 4), data, 1), 31, 3, 0);
    bits(0x1F, 5);
    AT("AAh: CRC-16", 19, crc16(crc16(0, sent, 4), data, 2), 0, 0, 0);
    SKIP(&host, WRITE_SCRATCHPAD, 0x3E, 0x01);
    bits(0, 1);
    host_reset(&host);
    check("a reset inside a data byte: PF", registers_are(0x013E, 0x3E, 0));
}

/* Case 5's write, then 0Fh and so many bits of an address that differs from T in each. */
static void short_address(int count)
{
    SKIP(&host, WRITE_SCRATCHPAD, 0x06, 0x00, 0x12, 0x34);
    SKIP(&host, WRITE_SCRATCHPAD);
    bits(0xFFF9, count);
}

/* Resets; whether T and E/S are still those of case 5's write. */
static bool reset_keeps(void) { return host_reset(&host) && registers_are(0x0006, 0x07, 0); }

static void test_short_address(void)
{
    bool before = true, after = true;
    set_up(&host, "1");
    for (int count = 0; count < 16; count++) {
        short_address(count);
        before = before && registers_are(0x0006, 0x07, 0);
        host_reset(&host);
        after = after && registers_are(0x0006, 0x27, 0);
    }
    check("a short address: nothing before the reset", before);
    check("a short address: PF at the reset, T and E stay", after);
    check("a short address: the scratchpad stays", host.pads[6] == 0x12 && host.pads[7] == 0x34);
    AT("a short address: ROM command", 1, 0, 0, 0, 0);
    short_address(8);
    check("power on at a short address", host_event(&host, TK_POWER_ON, 0, 0) == 1 && registers_are(0, 0x20, 0));
    short_address(16);
    host_reset(&host);
    check("16 bits: no short address", registers_are(0xFFF9, 0x19, 0));
    SKIP(&host, WRITE_SCRATCHPAD, 0x06, 0x00, 0x12, 0x34);
    host_skip(&host);
    bits(WRITE_SCRATCHPAD, 7);
    check("a reset inside 0Fh: no PF", reset_keeps());
    SKIP(&host, COPY_SCRATCHPAD, 0x20);
    check("a reset in the address of 55h: no PF", reset_keeps());
    SKIP(&host, READ_MEMORY, 0x20);
    check("a reset in the address of F0h: no PF", reset_keeps());
    SKIP(&host, COPY_SCRATCHPAD, 0x06, 0x00, 0x07);
    for (int i = 0; i < 2; i++) {
        SKIP(&host, WRITE_SCRATCHPAD, 0x20);
        host_reset(&host);
        check("a short address after a copy: PF and AA", registers_are(0x0006, 0xA7, 0));
    }
}

static void test_memory_steps(void)
{
    set_up(&host, "1");
    SKIP(&host, WRITE_SCRATCHPAD, 0x06, 0x00, 0x12, 0x34);
    SKIP(&host, COPY_SCRATCHPAD, 0x06);
    AT("55h: TA1 in", 22, 0x0600, 8, 0, 0);
    host_write(&host, 0x00);
    AT("55h: TA1 and TA2 in", 23, 0x0006, 0, 0, 0);
    bits(0x07, 4);
    AT("55h: four bits of E/S", 23, 0x0006, 4, 0x70, 0);
    bits(0, 4);
    AT("55h: carried out", 24, 0, 0, 0, 0);
    check("55h: AA", registers_are(0x0006, 0x87, 0));
    check("55h: a 0", host_slot(&host, 1) == 0);
    AT("55h: a 1 is next", 24, 0, 1, 0, 0);
    SKIP(&host, READ_MEMORY);
    bits(0x3E, 5);
    AT("F0h: address, five bits", 25, 0xF000, 5, 0, 0);
    SKIP(&host, READ_MEMORY, 0x3E, 0x0A);
    AT("F0h: the byte at 0A3Eh", 26, 0x0A3E, 0, 0, 0);
    bits(0x3FF, 10);
    AT("F0h: 0A3Fh, place 2", 26, 0x0A3F, 2, 0, 0);
    bits(0x3F, 6);
    AT("F0h: nothing more", 16, 0, 0, 0, 0);
    check("F0h: T and E/S stay", registers_are(0x0006, 0x87, 0));
}

static void test_switch_steps(void)
{
    set_up(&host, "2");
    SKIP(&host, PIO_ACCESS_READ);
    AT("F5h: the status", 33, 0, 0, 0x0F, 0);
    check("F5h: levels move", host_event(&host, TK_LEVELS, 0, 1) == 1 && host.table[14] == 1);
    bits(0x7F, 7);
    AT("F5h: the sample stays, place 7", 33, 0, 7, 0x0F, 0);
    host_slot(&host, 1);
    AT("F5h: the next sample", 33, 0, 0, 0x4B, 0);
    SKIP(&host, PIO_ACCESS_WRITE);
    bits(0xFE, 8);
    AT("5Ah: the byte", 34, 0xFE00, 8, 0, 0);
    host_write(&host, 0x01);
    AT("5Ah: AAh", 35, 0, 0, 0, 0);
    check("5Ah: latch A 0", host.table[13] == 2);
    bits(0xFF, 3);
    AT("5Ah: AAh, place 3", 35, 0, 3, 0, 0);
    bits(0xFF, 5);
    AT("5Ah: the status", 36, 0, 0, 0x78, 0);
    host_read(&host);
    AT("5Ah: the next pair", 34, 0, 0, 0, 0);
    host_write(&host, 0xFF);
    host_write(&host, 0xFF);
    AT("5Ah: no complement", 32, 0, 0, 0, 0);
    check("5Ah: the latches stay", host.table[13] == 2);
    check("power on", host_event(&host, TK_POWER_ON, 0, 0) == 1 && host.table[13] == 3 && host.table[14] == 1);
}

void test_records(void)
{
    test_rom_steps();
    test_scratchpad_steps();
    test_short_address();
    test_memory_steps();
    test_switch_steps();
}
