/* Lent pieces of memory that end at a page without access. */
#include "pieces.h"

#include <stdio.h>
#include <stdlib.h>
#include <string.h>
#include <sys/mman.h>
#include <unistd.h>

/* What stands before a piece, and so many bytes of it. */
#define GUARD 0xA7
#define GUARDS 256

struct piece new_piece(void)
{
    size_t page = (size_t)sysconf(_SC_PAGESIZE), all = ROOM + page;
    uint8_t *start = mmap(NULL, all + page, PROT_READ | PROT_WRITE, MAP_PRIVATE | MAP_ANONYMOUS, -1, 0);
    if (start == MAP_FAILED || mprotect(start + all, page, PROT_NONE) != 0) {
        perror("no memory for a piece");
        exit(2);
    }
    return (struct piece){start + all, start + all, 0};
}

void resize(struct piece *piece, size_t size)
{
    piece->size = size;
    piece->bytes = piece->end - size;
    memset(piece->bytes - GUARDS, GUARD, GUARDS);
}

void fill(struct piece *piece, const void *bytes, size_t size)
{
    resize(piece, size);
    memcpy(piece->bytes, bytes, size);
}

bool kept_before(const struct piece *piece)
{
    for (size_t i = 1; i <= GUARDS; i++)
        if (piece->bytes[-(ptrdiff_t)i] != GUARD)
            return false;
    return true;
}
