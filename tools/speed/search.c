/* The plain model's search: a host that knows the line by its answers alone. */
#include <string.h>

#include "line.h"
#include "plain.h"

/* A search under way: the line, the code of the last pass, and the last place at which the 0 side was taken. */
struct search {
    struct plain_line *line;
    uint64_t code;
    int branch;
    uint64_t slots;
};

/* One slot, counted. */
static unsigned slot(struct search *search, unsigned bit)
{
    search->slots++;
    return (unsigned)plain_line_event(search->line, bit, 0, 0);
}

/* One pass after its reset: finds the next code in branch order; false where no chip answers. */
static bool pass(struct search *search)
{
    uint64_t code = 0;
    int branch = -1;
    for (int i = 0; i < 8; i++)
        slot(search, 0xF0 >> i & 1);
    for (int i = 0; i < 64; i++) {
        unsigned bit = slot(search, 1), complement = slot(search, 1);
        if (bit && complement)
            return false;
        if (!bit && !complement) {
            bit = i < search->branch ? search->code >> i & 1 : i == search->branch;
            if (!bit)
                branch = i;
        }
        slot(search, bit);
        code |= (uint64_t)bit << i;
    }
    search->code = code;
    search->branch = branch;
    return true;
}

int32_t plain_search(uint8_t *table, size_t table_size, uint64_t *list, size_t places, uint8_t *images,
                     size_t images_size, uint8_t *pads, size_t pads_size, uint64_t *resets, uint64_t *slots)
{
    struct plain_line line;
    struct search search = {.line = &line, .branch = -1};
    int32_t answer = 0, refusal = plain_line_take(&line, table, table_size, images, images_size, pads, pads_size);
    *resets = *slots = 0;
    if (refusal < 0)
        return refusal;
    do {
        if ((size_t)answer == places && answer > 0) {
            answer = -TK_TOO_FEW_PLACES;
            break;
        }
        ++*resets;
        if (plain_line_event(&line, TK_RESET, 0, 0) == 1)
            break;
        if (places == 0) {
            answer = -TK_TOO_FEW_PLACES;
            break;
        }
        if (!pass(&search))
            break;
        list[answer++] = search.code;
    } while (search.branch >= 0);
    *slots = search.slots;
    memcpy(table, line.chips, table_size);
    return answer;
}
