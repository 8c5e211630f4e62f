/* The unit tests of the library: runs every file's tests. The last line is 'N passed, M failed'. */
#include <stdio.h>

#include "check.h"

static int passed, failed;

void check(const char *name, bool good)
{
    if (!good)
        printf("FAILED: %s\n", name);
    passed += good;
    failed += !good;
}

void card_record(uint8_t record[12], unsigned kind, uint8_t first)
{
    memset(record, 0, 12);
    record[0] = 10;
    record[2] = (uint8_t)kind;
    record[4] = first;
}

void set_up(struct host *host, const char *kinds)
{
    uint8_t card[TK_MOST_CHIPS * 12];
    size_t count = strlen(kinds);
    for (size_t i = 0; i < count; i++)
        card_record(card + 12 * i, (unsigned)(kinds[i] - '0'), (uint8_t)(i + 1));
    memset(host, 0, sizeof *host);
    check("a line is set up", host_set_up(host, card, 12 * count));
}

void skip_write(struct host *host, const uint8_t *bytes, size_t size)
{
    host_skip(host);
    for (size_t i = 0; i < size; i++)
        host_write(host, bytes[i]);
}

int main(void)
{
    test_sizes();
    test_cards();
    test_refusals();
    test_cases();
    test_records();
    test_slots();
    printf("%d passed, %d failed\n", passed, failed);
    return failed != 0;
}
