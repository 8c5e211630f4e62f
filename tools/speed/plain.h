/*
 * A straightforward model of the line in C, for comparison with libtoemsakun.a: the same functions on the same bytes,
 * under names that begin with plain_.
 *
 * A program that is compiled with -DUSE_PLAIN -include plain.h has this model in place of the library.
 */
#ifndef PLAIN_H
#define PLAIN_H

#include "toemsakun.h"

size_t plain_table_size(size_t chips);
size_t plain_images_size(const uint8_t *table, size_t table_size);
size_t plain_pads_size(const uint8_t *table, size_t table_size);
int32_t plain_card(const uint8_t *card, size_t card_size, uint8_t *table, size_t table_size, size_t *offset);
int32_t plain_event(uint8_t *table, size_t table_size, uint32_t event, uint32_t chip, uint32_t levels, uint8_t *images,
                    size_t images_size, uint8_t *pads, size_t pads_size);
int32_t plain_slots(uint8_t *table, size_t table_size, const uint8_t *bits, size_t bits_size, uint8_t *answers,
                    size_t answers_size, size_t slots, uint8_t *images, size_t images_size, uint8_t *pads,
                    size_t pads_size);
int32_t plain_search(uint8_t *table, size_t table_size, uint64_t *list, size_t places, uint8_t *images,
                     size_t images_size, uint8_t *pads, size_t pads_size, uint64_t *resets, uint64_t *slots);

#ifdef USE_PLAIN
#define tk_table_size plain_table_size
#define tk_images_size plain_images_size
#define tk_pads_size plain_pads_size
#define tk_card plain_card
#define tk_event plain_event
#define tk_slots plain_slots
#define tk_search plain_search
#endif

#endif
