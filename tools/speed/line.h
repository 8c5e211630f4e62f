/* The plain model's line in structs of its own. */
#ifndef PLAIN_LINE_H
#define PLAIN_LINE_H

#include "chip.h"
#include "toemsakun.h"

/* A line. The images and scratchpads are the caller's. */
struct plain_line {
    size_t count;
    struct chip chips[TK_MOST_CHIPS];
    uint8_t *images;
    uint8_t *pads;
};

/* Takes a line from the caller's bytes: 0, or minus refusal 8 or 5. */
int32_t plain_line_take(struct plain_line *line, const uint8_t *table, size_t table_size, uint8_t *images,
                        size_t images_size, uint8_t *pads, size_t pads_size);

/* One event on a line in structs: no byte is read as a record, and no range is checked. */
int32_t plain_line_event(struct plain_line *line, uint32_t event, uint32_t chip, uint32_t levels);

#endif
