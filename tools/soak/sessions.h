/* What a host does on a line, by chance: sessions that are often right, sometimes wrong, and cut anywhere. */
#ifndef SOAK_SESSIONS_H
#define SOAK_SESSIONS_H

#include <stddef.h>
#include <stdint.h>

#include "toemsakun.h"

/* A line: what is lent to a call. */
struct line {
    uint8_t table[TK_MOST_CHIPS * TK_RECORD_SIZE];
    uint8_t images[TK_MOST_IMAGES_SIZE];
    uint8_t pads[TK_MOST_PADS_SIZE];
    size_t chips, table_size, images_size, pads_size;
};

/* Sets up a line by chance: its chips, what they hold, and half the time what each is in the middle of. */
void any_line(struct line *line);

/* Puts a session, power on, outside levels or garbage on the line, whose chips are these. */
void any_session(const struct line *line);

/* Where the sessions go, which the program has: one slot, and one event that is no slot. */
void put_slot(unsigned bit);
void put_event(uint32_t event, uint32_t chip, uint32_t levels);

#endif
