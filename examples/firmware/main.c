/*
 * A morning in a heating plant, on a modelled line: two memories with setpoints and a switch for a valve.
 *
 * The host searches the line, writes a page of setpoints the careful way (write, read back, copy by the authorization
 * that was read), reads it, and opens the valve. Then it copies by an authorization that is out of date, as a host does
 * that does not read it back. Each step checks what came back; the exit status is 0 only where every step came out as
 * it should.
 */
#include <stdio.h>
#include <string.h>

#include "host.h"

/* The setpoints stand in page 1 of the first memory. */
#define SETPOINTS 0x0020

/* The card: length 10, kind, code with family first and CRC last. */
static const uint8_t card[] = {
    10, 0, TK_DS28EC20, 0, 0x43, 0x11, 0x22, 0x33, 0x00, 0x00, 0x00, 0x57,
    10, 0, TK_DS2413,   0, 0x3A, 0x44, 0x55, 0x66, 0x00, 0x00, 0x00, 0xE8,
    10, 0, TK_DS28EC20, 0, 0x43, 0x77, 0x08, 0x09, 0x00, 0x00, 0x00, 0x30,
};
static const uint8_t *const memory = card + 4;
static const uint8_t *const valve = card + 16;

static int failures;

/* Says how a step came out. */
static void step(const char *what, bool good)
{
    printf("%-6s %s\n", good ? "ok" : "WRONG", what);
    failures += !good;
}

/* Searches the line and prints each code, last byte first. */
static void search(struct host *host)
{
    uint64_t codes[TK_MOST_CHIPS];
    int32_t count = host_search(host, codes, TK_MOST_CHIPS);
    step("the search lists three codes", count == 3);
    for (int32_t i = 0; i < count; i++)
        printf("       %016llX\n", (unsigned long long)codes[i]);
}

/* Writes a page into the scratchpad, reads it back, and copies it by the authorization that was read. */
static void write_setpoints(struct host *host, const uint8_t page[PAGE_SIZE])
{
    struct scratchpad read = {0};
    uint8_t stored[PAGE_SIZE] = {0};
    step("Write Scratchpad: the chip's CRC-16 is right",
         host_write_scratchpad(host, memory, SETPOINTS, page, PAGE_SIZE));
    step("Read Scratchpad: the chip's CRC-16 is right", host_read_scratchpad(host, memory, &read));
    step("the scratchpad holds the setpoints", memcmp(read.data, page, PAGE_SIZE) == 0);
    printf("       TA1 %02X, TA2 %02X, E/S %02X\n", read.ta1, read.ta2, read.es);
    step("the address is the one that was sent", read.ta1 == (SETPOINTS & 0xFF) && read.ta2 == SETPOINTS >> 8);
    step("Copy Scratchpad: the chip answers 0 1 0 1", host_copy_scratchpad(host, memory, read.ta1, read.ta2, read.es));
    step("Read Memory", host_read_memory(host, memory, SETPOINTS, stored, PAGE_SIZE));
    step("the memory holds the setpoints", memcmp(stored, page, PAGE_SIZE) == 0);
}

/* Opens the valve: PIOA low. */
static void open_valve(struct host *host)
{
    uint8_t status = 0;
    bool confirmed = host_switch(host, valve, 0x02, &status);
    step("PIO Access Write: the switch confirms by AAh", confirmed);
    step("its status is 3Ch: latch and pin A low, B high", status == 0x3C);
}

/*
 * New setpoints, fewer of them, copied by the authorization of the page before: its E/S is out of date. The chip
 * refuses the copy and its memory stays. By the E/S that it has now the copy is carried out.
 */
static void copy_out_of_date(struct host *host, const uint8_t page[PAGE_SIZE])
{
    static const uint8_t fresh[] = {210, 211, 212, 213};
    uint8_t stored[PAGE_SIZE];
    struct scratchpad read = {0};
    step("Write Scratchpad: four bytes", host_write_scratchpad(host, memory, SETPOINTS, fresh, sizeof fresh));
    step("Copy Scratchpad by E/S 1F: refused, the chip answers ones",
         !host_copy_scratchpad(host, memory, SETPOINTS & 0xFF, SETPOINTS >> 8, 0x1F));
    step("the memory still holds the setpoints",
         host_read_memory(host, memory, SETPOINTS, stored, PAGE_SIZE) && memcmp(stored, page, PAGE_SIZE) == 0);
    step("Read Scratchpad: E/S is 03", host_read_scratchpad(host, memory, &read) && read.es == 0x03);
    step("Copy Scratchpad by E/S 03: the chip answers 0 1 0 1",
         host_copy_scratchpad(host, memory, read.ta1, read.ta2, read.es));
    step("the memory holds the four bytes, and the rest of the page as before",
         host_read_memory(host, memory, SETPOINTS, stored, PAGE_SIZE) && memcmp(stored, fresh, sizeof fresh) == 0 &&
             memcmp(stored + sizeof fresh, page + sizeof fresh, PAGE_SIZE - sizeof fresh) == 0);
}

int main(void)
{
    static struct host host;
    uint8_t page[PAGE_SIZE];
    for (int i = 0; i < PAGE_SIZE; i++)
        page[i] = (uint8_t)(180 + i);
    step("the card sets up the line", host_set_up(&host, card, sizeof card));
    search(&host);
    write_setpoints(&host, page);
    open_valve(&host);
    copy_out_of_date(&host, page);
    if (failures == 0)
        printf("all steps came out right\n");
    else
        printf("%d steps came out wrong\n", failures);
    return failures != 0;
}
