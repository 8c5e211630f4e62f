/* Lent pieces of memory. Each ends where a page without access begins: a read or write past it stops the program. */
#ifndef PIECES_H
#define PIECES_H

#include <stdbool.h>
#include <stddef.h>
#include <stdint.h>

/* The most bytes of a piece. */
#define ROOM 65536

/* A piece: its size, and its bytes at the end of its pages. */
struct piece {
    uint8_t *end;
    uint8_t *bytes;
    size_t size;
};

/* Pages for a piece, with one without access after them. It has no bytes yet. */
struct piece new_piece(void);

/* Gives a piece so many bytes, at most ROOM, with known bytes before them. */
void resize(struct piece *piece, size_t size);

/* Gives a piece these bytes. */
void fill(struct piece *piece, const void *bytes, size_t size);

/* Whether nothing before a piece has been written since its size was set. */
bool kept_before(const struct piece *piece);

#endif
