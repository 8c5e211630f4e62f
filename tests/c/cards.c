/* tk_card: the records that it writes, and each refusal. */
#include "check.h"

static uint8_t card[20 * 12], table[20 * TK_RECORD_SIZE], before[20 * TK_RECORD_SIZE];
static size_t offset;

/* Fills the card with good records and the table with bytes that are no records. */
static void fresh(void)
{
    for (size_t i = 0; i < 20; i++)
        card_record(card + 12 * i, 1 + i % 2, (uint8_t)(0x40 + i));
    memset(table, 0xEE, sizeof table);
    memcpy(before, table, sizeof table);
    offset = 999;
}

/* Whether a card of so many bytes is refused by a number at an offset, and the table stays. */
static bool refused(size_t card_size, size_t table_size, int32_t refusal, size_t at)
{
    return tk_card(card, card_size, table, table_size, &offset) == -refusal && offset == at &&
           memcmp(table, before, sizeof table) == 0;
}

static void test_good_cards(void)
{
    static const uint8_t first[TK_RECORD_SIZE] = {0x40, 0, 0, 0, 0, 0, 0, 0, 1, 0, 0, 0, 0x20, 3, 3};
    static const uint8_t second[TK_RECORD_SIZE] = {0x41, 0, 0, 0, 0, 0, 0, 0, 2, 0, 0, 0, 0x20, 3, 3};
    const size_t one = TK_RECORD_SIZE, two = 2 * TK_RECORD_SIZE, most = TK_MOST_CHIPS * TK_RECORD_SIZE;
    fresh();
    check("an empty card", tk_card(card, 0, table, sizeof table, &offset) == 0 && offset == 0);
    check("an empty card leaves the table", memcmp(table, before, sizeof table) == 0);
    check("an empty card into no table", tk_card(card, 0, table, 0, &offset) == 0 && offset == 0);
    check("two chips", tk_card(card, 24, table, 3 * TK_RECORD_SIZE, &offset) == 2 && offset == 0);
    check("the record of a memory at set-up", memcmp(table, first, TK_RECORD_SIZE) == 0);
    check("the record of a switch at set-up", memcmp(table + TK_RECORD_SIZE, second, TK_RECORD_SIZE) == 0);
    check("the rest of the table stays", memcmp(table + two, before + two, sizeof table - two) == 0);
    fresh();
    check("a table with a part of a record more", tk_card(card, 12, table, two - 1, &offset) == 1);
    check("that part stays", memcmp(table + one, before + one, sizeof table - one) == 0);
    fresh();
    check("16 chips in 16 places", tk_card(card, 192, table, 16 * TK_RECORD_SIZE, &offset) == 16 && offset == 0);
    check("16 chips in 20 places", tk_card(card, 192, table, sizeof table, &offset) == 16 && offset == 0);
    check("places past the 16th stay", memcmp(table + most, before + most, sizeof table - most) == 0);
}

static void test_refused_cards(void)
{
    fresh();
    check("1: a 17th record", refused(204, sizeof table, TK_TOO_MANY, 192));
    check("1: one record, no place", refused(12, 0, TK_TOO_MANY, 0));
    check("1: one record, a place but for a byte", refused(12, TK_RECORD_SIZE - 1, TK_TOO_MANY, 0));
    check("1: three records, two places", refused(36, 2 * TK_RECORD_SIZE, TK_TOO_MANY, 24));
    card[14] = 3;
    check("2: kind 3", refused(36, sizeof table, TK_UNKNOWN_KIND, 12));
    card[14] = 0;
    check("2: kind 0", refused(36, sizeof table, TK_UNKNOWN_KIND, 12));
    card[14] = 1, card[15] = 1;
    check("2: kind 0101h", refused(36, sizeof table, TK_UNKNOWN_KIND, 12));
    card[12] = 9;
    check("2 comes before 3", refused(36, sizeof table, TK_UNKNOWN_KIND, 12));
    card[15] = 0;
    check("3: length 9", refused(36, sizeof table, TK_WRONG_LENGTH, 12));
    card[12] = 10, card[13] = 1;
    check("3: length 010Ah", refused(36, sizeof table, TK_WRONG_LENGTH, 12));
    card[13] = 0;
    check("3: three bytes left", refused(15, sizeof table, TK_WRONG_LENGTH, 12));
    check("3: a cut body", refused(23, sizeof table, TK_WRONG_LENGTH, 12));
    check("3 comes before 1", refused(23, TK_RECORD_SIZE, TK_WRONG_LENGTH, 12));
    card[194] = 9;
    check("2 at a 17th record", refused(204, sizeof table, TK_UNKNOWN_KIND, 192));
}

void test_cards(void)
{
    test_good_cards();
    test_refused_cards();
}
