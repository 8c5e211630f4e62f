/*
 * A 1-Wire host on a modelled line. In firmware the lower half (host_reset, host_slot, host_run) drives a pin; here it calls
 * the library, and all above it stays as it is. host_set_up, host_event and host_search belong to the model: firmware brings
 * its own search. host_set_up has shown that the line is not refused, so a slot always has a bit.
 */
#ifndef HOST_H
#define HOST_H

#include <stdbool.h>

#include "toemsakun.h"

/* Bytes of a code, and of a page of a DS28EC20. */
#define CODE_SIZE 8
#define PAGE_SIZE 32

/* ROM commands. */
#define MATCH_ROM 0x55
#define SKIP_ROM 0xCC

/* Function commands of a DS28EC20. */
#define WRITE_SCRATCHPAD 0x0F
#define READ_SCRATCHPAD 0xAA
#define COPY_SCRATCHPAD 0x55
#define READ_MEMORY 0xF0

/* Function commands of a DS2413. */
#define PIO_ACCESS_READ 0xF5
#define PIO_ACCESS_WRITE 0x5A

/* A line: all that it lends to the library, with room for the most chips. */
struct host {
    uint8_t table[TK_MOST_CHIPS * TK_RECORD_SIZE];
    uint8_t images[TK_MOST_IMAGES_SIZE];
    uint8_t pads[TK_MOST_PADS_SIZE];
    size_t table_size;
    size_t images_size;
    size_t pads_size;
};

/* What Read Scratchpad sends. The copy must be authorized by the first three bytes. */
struct scratchpad {
    uint8_t ta1;
    uint8_t ta2;
    uint8_t es;
    uint8_t data[PAGE_SIZE];
};

/* Sets up the chips of a card, memories erased (FFh), and powers them on. False where the card is refused. */
bool host_set_up(struct host *host, const uint8_t *card, size_t card_size);

/* One event; below 0 is minus a refusal. */
int32_t host_event(struct host *host, uint32_t event, uint32_t chip, uint32_t levels);

/* A reset; true where a chip is there. */
bool host_reset(struct host *host);

/* One slot in which the host writes a bit; what the line came to. A read slot writes 1. */
unsigned host_slot(struct host *host, unsigned bit);

/*
 * So many bytes in one run of slots, least significant bit first, at most TK_MOST_SLOTS / 8 of them: what the host writes,
 * and what the line came to; 0 where the line refuses the run. To read is to write FFh.
 */
void host_run(struct host *host, const uint8_t *bits, uint8_t *answers, size_t bytes);

/* Writes a byte, least significant bit first. */
void host_write(struct host *host, uint8_t byte);

/* Reads a byte. */
uint8_t host_read(struct host *host);

/* Reset, then Match ROM with a code; false where no chip is there. */
bool host_match(struct host *host, const uint8_t code[CODE_SIZE]);

/* Reset, then Skip ROM; false where no chip is there. */
bool host_skip(struct host *host);

/* Searches the line; how many codes are listed, or minus a refusal. */
int32_t host_search(struct host *host, uint64_t *codes, size_t places);

/*
 * Writes into the scratchpad of the chip with this code, within one page. A chip sends its CRC-16 only after the page's
 * last byte: false where that is wrong, or no chip is there.
 */
bool host_write_scratchpad(struct host *host, const uint8_t code[CODE_SIZE], uint16_t address, const uint8_t *bytes,
                           size_t size);

/* Reads a scratchpad that was written from offset 0; true where the chip's CRC-16 is right. */
bool host_read_scratchpad(struct host *host, const uint8_t code[CODE_SIZE], struct scratchpad *read);

/* Copies the scratchpad into memory by an authorization; true where the chip answers 0 1 0 1, as after a copy. */
bool host_copy_scratchpad(struct host *host, const uint8_t code[CODE_SIZE], uint8_t ta1, uint8_t ta2, uint8_t es);

/* Reads memory; false where no chip is there. */
bool host_read_memory(struct host *host, const uint8_t code[CODE_SIZE], uint16_t address, uint8_t *bytes, size_t size);

/* Sets both latches of a DS2413 (bit 0 for PIOA, bit 1 for PIOB); true where it confirms, with its status. */
bool host_switch(struct host *host, const uint8_t code[CODE_SIZE], uint8_t latches, uint8_t *status);

/* CRC-16 after more bytes; it starts at 0. */
uint16_t crc16(uint16_t crc, const uint8_t *bytes, size_t size);

#endif
