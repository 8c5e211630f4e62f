/*
 * What the library and the plain model are measured on: a round of sessions, as a host speaks with one chip.
 *
 * Write Scratchpad of a page with its CRC-16, Read Scratchpad, Copy Scratchpad, Read Memory of a page, and on a line with
 * a switch PIO Access Write and Read. Each session opens with a reset and Match ROM.
 */
#ifndef SPEED_ROUND_H
#define SPEED_ROUND_H

#include <stddef.h>
#include <stdint.h>

/* The most sessions of a round, and of these with a memory, which come first; the most slots of one. */
#define MOST_SESSIONS 6
#define MEMORY_SESSIONS 4
#define MOST_SLOTS 512

/* The slots of Match ROM: the command and a code. */
#define OPENING 72

/* A session: the host's bits after the reset, as events and packed with the least significant first. */
struct session {
    size_t slots;
    uint8_t events[MOST_SLOTS];
    uint8_t bits[MOST_SLOTS / 8];
};

struct round {
    size_t sessions;
    struct session session[MOST_SESSIONS];
};

/* Makes the round for one memory, and for one switch where there is one. The code of a chip is its number plus 1. */
void round_make(struct round *round, unsigned memory, int with_switch, unsigned pio);

#endif
