/*
 * The functions of toemsakun.h behind standard input and output, for a tester that is another program.
 *
 * Numbers have the low byte first. A piece of memory is its size (4 bytes) and its bytes. A call is a letter and what
 * it needs; its answer comes at once.
 *
 *   letter  needs                                          answers
 *   S       chips (8)                                      tk_table_size (8)
 *   C       card, table                                    tk_card (4), offset (8), table
 *   L       table, images, pads: the line from here on     tk_images_size (8), tk_pads_size (8)
 *   E       event (4), chip (4), levels (4)                tk_event (4), the line
 *   R       slots (8), bits, answers as they are before    tk_slots (4), answers, the line
 *   F       list, its size 8 times the places              tk_search (4), resets (8), slots (8), list, the line
 *   M                                                      images
 *
 * "The line" is the table, the pads and the FNV-1a sum of the images (8). The line that L gave stays until the next L (C
 * puts another table in its place), so that a tester also sees what builds up over calls. L comes first. Each lent piece
 * ends where a page without access begins; what lies before it is looked at after each call. The input's end ends the
 * program; a fault in the input, a write before a piece, or one into a piece that is lent to be read, ends it with status 2.
 */
#include <stdio.h>
#include <stdlib.h>
#include <string.h>

#include "pieces.h"
#include "toemsakun.h"

static void fail(const char *what)
{
    fprintf(stderr, "driver: %s\n", what);
    exit(2);
}

static void get(void *bytes, size_t size)
{
    if (fread(bytes, 1, size, stdin) != size)
        fail("the input ends inside a call");
}

static uint64_t get_number(size_t size)
{
    uint8_t bytes[8];
    uint64_t number = 0;
    get(bytes, size);
    for (size_t i = 0; i < size; i++)
        number |= (uint64_t)bytes[i] << 8 * i;
    return number;
}

static void put(const void *bytes, size_t size)
{
    if (fwrite(bytes, 1, size, stdout) != size)
        fail("the output is closed");
}

static void put_number(uint64_t number, size_t size)
{
    for (size_t i = 0; i < size; i++, number >>= 8)
        putchar((int)(number & 0xFF));
}

/* Takes a piece from the input. */
static void get_piece(struct piece *piece)
{
    size_t size = (size_t)get_number(4);
    if (size > ROOM)
        fail("a piece is too large");
    resize(piece, size);
    get(piece->bytes, size);
}

/* Ends the program where something before a piece was written. */
static void look_before(const struct piece *piece)
{
    if (!kept_before(piece))
        fail("a call wrote before a piece");
}

static void put_piece(const struct piece *piece)
{
    look_before(piece);
    put_number(piece->size, 4);
    put(piece->bytes, piece->size);
}

/* What a piece that is lent to be read held before the call. */
static uint8_t copy[ROOM];

/* Takes such a piece from the input. */
static void get_to_read(struct piece *piece)
{
    get_piece(piece);
    memcpy(copy, piece->bytes, piece->size);
}

/* Ends the program where it is not as it was. */
static void look_at_read(const struct piece *piece)
{
    look_before(piece);
    if (memcmp(copy, piece->bytes, piece->size) != 0)
        fail("a call wrote into a piece that is lent to be read");
}

static struct piece table, images, pads, card, list, bits, answers;

/* Writes the line: table, pads, sum of the images. */
static void put_line(void)
{
    uint64_t sum = 0xCBF29CE484222325u;
    for (size_t i = 0; i < images.size; i++)
        sum = (sum ^ images.bytes[i]) * 0x100000001B3u;
    put_piece(&table);
    put_piece(&pads);
    look_before(&images);
    put_number(sum, 8);
}

/* C: set-up from a card. */
static void do_card(void)
{
    size_t offset = SIZE_MAX;
    get_to_read(&card);
    get_piece(&table);
    int32_t answer = tk_card(card.bytes, card.size, table.bytes, table.size, &offset);
    look_at_read(&card);
    put_number((uint32_t)answer, 4);
    put_number(offset, 8);
    put_piece(&table);
}

/* L: the line from here on, and what its table asks. */
static void do_lend(void)
{
    get_piece(&table);
    get_piece(&images);
    get_piece(&pads);
    put_number(tk_images_size(table.bytes, table.size), 8);
    put_number(tk_pads_size(table.bytes, table.size), 8);
}

/* E: one event. */
static void do_event(void)
{
    uint32_t event = (uint32_t)get_number(4), chip = (uint32_t)get_number(4), levels = (uint32_t)get_number(4);
    int32_t answer =
        tk_event(table.bytes, table.size, event, chip, levels, images.bytes, images.size, pads.bytes, pads.size);
    put_number((uint32_t)answer, 4);
    put_line();
}

/* R: a run of slots. */
static void do_slots(void)
{
    size_t slots = (size_t)get_number(8);
    get_to_read(&bits);
    get_piece(&answers);
    int32_t answer = tk_slots(table.bytes, table.size, bits.bytes, bits.size, answers.bytes, answers.size, slots,
                              images.bytes, images.size, pads.bytes, pads.size);
    look_at_read(&bits);
    put_number((uint32_t)answer, 4);
    put_piece(&answers);
    put_line();
}

/* F: a search. */
static void do_search(void)
{
    uint64_t resets = UINT64_MAX, slots = UINT64_MAX;
    get_piece(&list);
    if (list.size % sizeof(uint64_t) != 0)
        fail("a list of parts of places");
    int32_t answer = tk_search(table.bytes, table.size, (uint64_t *)(void *)list.bytes, list.size / sizeof(uint64_t),
                               images.bytes, images.size, pads.bytes, pads.size, &resets, &slots);
    put_number((uint32_t)answer, 4);
    put_number(resets, 8);
    put_number(slots, 8);
    put_piece(&list);
    put_line();
}

int main(void)
{
    table = new_piece();
    images = new_piece();
    pads = new_piece();
    card = new_piece();
    list = new_piece();
    bits = new_piece();
    answers = new_piece();
    for (int letter; (letter = getchar()) != EOF; fflush(stdout)) {
        switch (letter) {
        case 'S':
            put_number(tk_table_size((size_t)get_number(8)), 8);
            break;
        case 'C':
            do_card();
            break;
        case 'L':
            do_lend();
            break;
        case 'E':
            do_event();
            break;
        case 'R':
            do_slots();
            break;
        case 'F':
            do_search();
            break;
        case 'M':
            put_piece(&images);
            break;
        default:
            fail("no such call");
        }
    }
    return 0;
}
