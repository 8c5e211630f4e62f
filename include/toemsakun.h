/*
 * A 1-Wire line with up to 16 chips on it, DS28EC20 memories and DS2413 switches, for firmware to be tried against.
 *
 * The caller owns all memory. It lends a table (one record for each chip), the memory images and the scratchpads of the
 * chips, for a run of slots its bits and room for the answers, and for a search a list. Nothing is kept between calls, and
 * nothing is allocated: several lines may live side by side, one call at a time on each.
 *
 * Link with libtoemsakun.a (x86-64). See examples/firmware for a whole host.
 *
 * What the caller owes, in every call: each pointer is valid for the size that stands beside it, is aligned for its type
 * and is not NULL, not even where the size is 0; and no two of the lent pieces overlap. The contents may be anything: bad
 * contents and bad sizes are refused.
 */
#ifndef TOEMSAKUN_H
#define TOEMSAKUN_H

#include <stddef.h>
#include <stdint.h>

#ifdef __cplusplus
extern "C" {
#endif

/* Sizes, in bytes where not said otherwise. */
#define TK_MOST_CHIPS 16          /* chips on one line */
#define TK_RECORD_SIZE 32         /* one chip's record in the table */
#define TK_IMAGE_SIZE 2624        /* the memory image of one DS28EC20: addresses 0000h to 0A3Fh */
#define TK_PAD_SIZE 32            /* the scratchpad of one DS28EC20 */
#define TK_MOST_IMAGES_SIZE 41984 /* the images of a line of 16 memories: no line asks more */
#define TK_MOST_PADS_SIZE 512     /* the scratchpads of a line of 16 memories: no line asks more */
#define TK_MOST_SLOTS 65535       /* slots in one run */
#define TK_CODE_SLOTS 200         /* slots that a search puts on the line for each code it lists */

/* The kinds of a chip. A DS2413 has no image and no scratchpad. */
#define TK_DS28EC20 1
#define TK_DS2413 2

/* Events. A read slot is TK_WRITE_1. */
#define TK_WRITE_0 0  /* a slot in which the host writes 0 */
#define TK_WRITE_1 1  /* a slot in which the host writes 1, or reads */
#define TK_RESET 2    /* a reset */
#define TK_POWER_ON 3 /* power on of every chip */
#define TK_LEVELS 4   /* outside levels of one DS2413: bit 0 for PIOA, bit 1 for PIOB */

/*
 * Refusals. A result below 0 is minus one of these numbers; 0 or more is the answer. Where several hold, the first in this
 * order is given: of a card's record 3 for fewer than 4 bytes left, then 2, then 3 for its length or a cut body, then 1;
 * of an event 8, 5, 6, 7; of a run 8, 5; of a search 8, 5, 4.
 */
#define TK_TOO_MANY 1       /* card: a 17th record, or more records than the table has places */
#define TK_UNKNOWN_KIND 2   /* card: a kind that is neither 1 nor 2 */
#define TK_WRONG_LENGTH 3   /* card: a record that is cut short, or whose length is not 10 */
#define TK_TOO_FEW_PLACES 4 /* search: fewer places than codes on the line; the list is full */
#define TK_WRONG_SIZE 5     /* images or scratchpads have another size than the table asks; of a run, more slots than
                               TK_MOST_SLOTS, or bits or answers of another size than the slots ask */
#define TK_NO_SUCH_EVENT 6  /* an event over 4 */
#define TK_NO_SUCH_LEVELS 7 /* event 4 names no DS2413 of the line, or levels over 3 */
#define TK_OUT_OF_RANGE 8   /* the table is no table: see below */

/*
 * A chip's record: TK_RECORD_SIZE bytes, numbers with the low byte first.
 *
 *   offset  bytes  field
 *        0      8  code: bit 0 of byte 0 is the first bit on the line (byte 0 family, byte 7 CRC)
 *        8      1  kind: 1 or 2
 *        9      1  RC: 0 or 1
 *       10      2  T, the target address (DS28EC20)
 *       12      1  E/S (DS28EC20), bit 6 zero
 *       13      1  latches (DS2413), 0 to 3: bit 0 latch A, bit 1 latch B
 *       14      1  outside levels (DS2413), 0 to 3: bit 0 PIOA, bit 1 PIOB
 *       15      1  step: what the chip is in the middle of, from the table below
 *       16      2  w \
 *       18      1  a  | what the step needs to go on; what it does not name is 0
 *       19      1  b  |
 *       20      1  c /
 *       21     11  0: kept for fields to come
 *
 *   step  of            what it needs
 *      0  any chip      waiting for a reset
 *      1  any chip      ROM command: a bits taken (0 to 7), b the register that they fill
 *      2  any chip      Read ROM: a place of the bit to send (0 to 63)
 *      3  any chip      Match ROM: a place of the bit to take (0 to 63)
 *      4  any chip      Search ROM: a place (0 to 63), b 0 for the bit, 1 for its complement, 2 for the bit to take
 *      5  any chip      function command: a bits taken (0 to 7), b the register that they fill
 *     16  DS28EC20      nothing more to send
 *     17  DS28EC20      Write Scratchpad, address: a bits taken (0 to 15), w the register that they fill
 *     18  DS28EC20      Write Scratchpad, data: a offset (0 to 31), b bits taken (0 to 7), c the register that they fill,
 *                       w CRC-16 so far
 *     19  DS28EC20      CRC-16 being sent: a place (0 to 15), w the CRC-16 before it is inverted
 *     20  DS28EC20      Read Scratchpad, TA1, TA2 and E/S: a place (0 to 23)
 *     21  DS28EC20      Read Scratchpad, data: a offset (0 to 31), b place (0 to 7), w CRC-16 so far
 *     22  DS28EC20      Copy Scratchpad, TA1 and TA2: a bits taken (0 to 15), w the register that they fill
 *     23  DS28EC20      Copy Scratchpad, E/S: a bits taken (0 to 7), b the register that they fill, w TA1 and TA2
 *     24  DS28EC20      a copy was carried out: a the bit that is sent next, 0 or 1
 *     25  DS28EC20      Read Memory, address: a bits taken (0 to 15), w the register that they fill
 *     26  DS28EC20      Read Memory, data: w address (0 to 0A3Fh), a place (0 to 7)
 *     32  DS2413        nothing more to send
 *     33  DS2413        PIO Access Read: a place (0 to 7), b the sampled status
 *     34  DS2413        PIO Access Write, the byte and its complement: a bits taken (0 to 15), w the register that they fill
 *     35  DS2413        PIO Access Write, AAh: a place (0 to 7)
 *     36  DS2413        PIO Access Write, the status: a place (0 to 7), b the sampled status
 *
 * A register that is filled bit by bit starts at 0 and is filled from the top: each bit comes in above and shifts the
 * others down. "CRC-16 so far" is that of the command, of what followed it, and of the data bytes before offset a.
 * E/S bit 6, latches and outside levels are judged in a record of either kind.
 *
 * Firmware need not know this: tk_card writes records and the other calls keep them. A table is refused by
 * TK_OUT_OF_RANGE where its size is no multiple of TK_RECORD_SIZE, it has over 16 records, a byte that must be 0 is not,
 * a step is not in the table above or is not one of the chip's kind, or a field lies outside its range.
 */

/* The bytes of a table of so many chips; more than TK_MOST_CHIPS count as TK_MOST_CHIPS. */
size_t tk_table_size(size_t chips);

/*
 * The bytes of images, and of scratchpads, to lend with a table; 0 where it has over 16 records, or bytes that are no
 * records. Bytes are records where their number is a multiple of TK_RECORD_SIZE, each byte that must be 0 is, each step
 * is in the table above, and RC and the a of step 24 are 0 or 1. Ranges do not matter here. At most TK_MOST_IMAGES_SIZE
 * and TK_MOST_PADS_SIZE.
 */
size_t tk_images_size(const uint8_t *table, size_t table_size);
size_t tk_pads_size(const uint8_t *table, size_t table_size);

/*
 * Set-up from a card: a run of records, each the length 10 (2 bytes, low byte first), the kind (2 bytes) and the eight
 * bytes of a code, family first. As many chips fit as the table has room for whole records; what stands in the table is
 * not read.
 *
 * Answers the number of chips, n. The first n records are then chips as after power on, the rest of the table is as it
 * was, and *offset is 0. Lend just those n records (tk_table_size(n) bytes) from then on, with images and scratchpads of
 * the sizes that they ask, and put TK_POWER_ON on the line first: it sets the scratchpads.
 *
 * Refused by 1, 2 or 3: the table is as it was, and *offset is where the record at fault begins in the card.
 */
int32_t tk_card(const uint8_t *card, size_t card_size, uint8_t *table, size_t table_size, size_t *offset);

/*
 * One event. Answers the bit on the bus, 0 or 1: of a slot, the AND of the host's bit and what each chip sends; of a reset, 0
 * where a chip is there; of the others, 1. chip and levels are read for TK_LEVELS alone.
 *
 * Refused by 8, 5, 6 or 7: nothing is changed.
 */
int32_t tk_event(uint8_t *table, size_t table_size, uint32_t event, uint32_t chip, uint32_t levels, uint8_t *images,
                 size_t images_size, uint8_t *pads, size_t pads_size);

/*
 * A run of slots: a byte, a code, a page, all that a host writes or reads before it looks at what came back. Where slots
 * follow one another this is the call to make, and not tk_event for each: the table is judged once for the whole run.
 *
 * bits has what the host writes in the order of the line, the first bit as bit 0 of byte 0, so that a byte is 8 slots as it
 * stands; a read slot is a 1, so that bytes are read by as many bytes FFh. The bits on the bus come into answers in the same
 * places. Both have just the bytes that the slots ask: slots / 8, rounded up. Of the last byte, what lies past the run is
 * not looked at in bits, and is 0 in answers.
 *
 * Answers how many slots were put on the line: all of them. The line, and the bits in answers, are then those of so many
 * calls of tk_event. A run of no slots answers 0.
 *
 * Refused by 8 or 5: nothing is changed, no byte of answers either.
 */
int32_t tk_slots(uint8_t *table, size_t table_size, const uint8_t *bits, size_t bits_size, uint8_t *answers,
                 size_t answers_size, size_t slots, uint8_t *images, size_t images_size, uint8_t *pads, size_t pads_size);

/*
 * Search: lists each code on the line once, in branch order (bit 0 first, 0 before 1). A code is a number whose bit 0 is
 * the first bit on the line. Answers how many codes are listed; *resets and *slots are what was put on the line.
 *
 * Refused by 8 or 5: nothing is changed, and both counts are 0. Refused by 4: the list is filled to its end, and the line
 * is as after those passes. Places past the codes listed stay as they were.
 *
 * Where neither 8 nor 5 is given, the answer, the codes listed and both counts depend only on the set of codes on the line
 * and on the number of places: not on what chips hold or are in the middle of, nor on any calls before. So a search after
 * trouble lists what one with as many places would have listed before it.
 */
int32_t tk_search(uint8_t *table, size_t table_size, uint64_t *list, size_t places, uint8_t *images, size_t images_size,
                  uint8_t *pads, size_t pads_size, uint64_t *resets, uint64_t *slots);

#ifdef __cplusplus
}
#endif

#endif
