/* Bench cases 2 to 9 of document 01 through the library, and the cases of M-102 and M-111. */
#include "check.h"

static struct host host;

/* TA1, TA2 and E/S of the only memory by Read Scratchpad, as one number: 060027h for 06 00 27. */
static uint32_t read_registers(void)
{
    SKIP(&host, READ_SCRATCHPAD);
    uint32_t ta1 = host_read(&host), ta2 = host_read(&host);
    return ta1 << 16 | ta2 << 8 | host_read(&host);
}

/* E/S of the only memory. */
static uint8_t read_es(void) { return read_registers() & 0xFF; }

/* Whether every byte of the memory is FFh. */
static bool is_erased(void)
{
    bool erased = true;
    for (size_t i = 0; i < host.images_size; i++)
        erased = erased && host.images[i] == 0xFF;
    return erased;
}

static void test_search_cases(void)
{
    static const uint8_t firsts[4] = {0xAC, 0x55, 0xAF, 0x88};
    uint8_t card[48];
    uint64_t list[16] = {0}, resets, slots;
    for (size_t i = 0; i < 4; i++)
        card_record(card + 12 * i, TK_DS28EC20, firsts[i]);
    check("case 2: set-up", host_set_up(&host, card, sizeof card));
    int32_t found = tk_search(host.table, host.table_size, list, 16, host.images, host.images_size, host.pads,
                              host.pads_size, &resets, &slots);
    check("case 2: 88h, ACh, 55h, AFh", found == 4 && list[0] == 0x88 && list[1] == 0xAC && list[2] == 0x55 &&
                                            list[3] == 0xAF && resets == 4 && slots == 800);
    memset(list, 0, sizeof list);
    found = tk_search(host.table, host.table_size, list, 2, host.images, host.images_size, host.pads, host.pads_size,
                      &resets, &slots);
    check("case 3: two places, refusal 4",
          found == -TK_TOO_FEW_PLACES && list[0] == 0x88 && list[1] == 0xAC && list[2] == 0 && slots == 400);
}

/* A search: the answer, both counts, and a list that holds one byte everywhere before. */
struct searched {
    int32_t answer;
    uint64_t resets, slots, list[8];
    uint8_t before;
};

static struct searched search(struct host *line, size_t places, uint8_t before)
{
    struct searched found = {.before = before};
    memset(found.list, before, sizeof found.list);
    found.answer = tk_search(line->table, line->table_size, found.list, places, line->images, line->images_size,
                             line->pads, line->pads_size, &found.resets, &found.slots);
    return found;
}

/* Whether a search lists so many codes of case 2, a reset and 200 slots for each, and leaves the rest of the list. */
static bool lists(struct searched found, int32_t answer, size_t codes)
{
    uint64_t want[8] = {0x88, 0xAC, 0x55, 0xAF};
    memset(want + codes, found.before, sizeof want - codes * sizeof *want);
    return found.answer == answer && found.resets == codes && found.slots == codes * TK_CODE_SLOTS &&
           memcmp(found.list, want, sizeof want) == 0;
}

/* Sets up the codes of case 2 by their first bytes, with a kind for each. */
static void set_up_codes(struct host *line, const uint8_t *firsts, const char *kinds)
{
    uint8_t card[8 * 12];
    size_t count = strlen(kinds);
    for (size_t i = 0; i < count; i++)
        card_record(card + 12 * i, (unsigned)(kinds[i] - '0'), firsts[i]);
    memset(line, 0, sizeof *line);
    check("after trouble: set-up", host_set_up(line, card, 12 * count));
}

/* A line in trouble, with ACh twice, and a fresh one with the same codes in another order and on other kinds. */
static void test_after_trouble(void)
{
    static const uint8_t troubled[5] = {0xAF, 0x88, 0xAC, 0x55, 0xAC}, others[4] = {0x55, 0xAC, 0x88, 0xAF};
    static const uint8_t code[CODE_SIZE] = {0x88}, bytes[2] = {0x12, 0x34};
    static struct host fresh, line;
    set_up_codes(&host, troubled, "21211");
    set_up_codes(&fresh, others, "2121");
    check("after trouble: a pin of AFh held low", host_event(&host, TK_LEVELS, 0, 2) == 1);
    check("after trouble: 88h is written", host_write_scratchpad(&host, code, 0x0006, bytes, sizeof bytes));
    host_match(&host, code);
    host_write(&host, COPY_SCRATCHPAD);
    host_write(&host, 0x06);
    host_write(&host, 0x00);
    for (int i = 0; i < 3; i++)
        host_slot(&host, 0x07 >> i & 1);
    const uint8_t *record = host.table + TK_RECORD_SIZE;
    check("after trouble: 88h has RC 1 and is inside a copy", record[9] == 1 && record[15] == 23);
    line = host;
    check("after trouble: 88h, ACh, 55h, AFh", lists(search(&line, 8, 0xDD), 4, 4));
    line = fresh;
    check("the fresh line: 88h, ACh, 55h, AFh", lists(search(&line, 8, 0x5A), 4, 4));
    line = host;
    check("after trouble: as many places as codes", lists(search(&line, 4, 0x99), 4, 4));
    line = fresh;
    check("the fresh line: as many places as codes", lists(search(&line, 4, 0x21), 4, 4));
    line = host;
    check("after trouble: two places, refusal 4", lists(search(&line, 2, 0x77), -TK_TOO_FEW_PLACES, 2));
    line = fresh;
    check("the fresh line: two places, refusal 4", lists(search(&line, 2, 0xEE), -TK_TOO_FEW_PLACES, 2));
}

static void test_case_4(void)
{
    set_up(&host, "1");
    SKIP(&host, COPY_SCRATCHPAD, 0x00, 0x00, 0x20);
    check("case 4: ones", host_read(&host) == 0xFF);
    check("case 4: nothing copied", is_erased() && read_es() == 0x20);
}

static void test_case_5(void)
{
    set_up(&host, "1");
    SKIP(&host, WRITE_SCRATCHPAD, 0x06, 0x00, 0x12, 0x34);
    check("case 5: E/S 07h", read_es() == 0x07);
    SKIP(&host, COPY_SCRATCHPAD, 0x06, 0x00, 0x06);
    check("case 5: copy 06 00 06, ones", host_read(&host) == 0xFF && read_es() == 0x07);
    check("case 5: nothing written", host.images[6] == 0xFF && host.images[7] == 0xFF);
    SKIP(&host, COPY_SCRATCHPAD, 0x06, 0x00, 0x07);
    check("case 5: copy 06 00 07, 0 1 0 1", host_read(&host) == 0xAA && read_es() == 0x87);
    check("case 5: both written",
          host.images[5] == 0xFF && host.images[6] == 0x12 && host.images[7] == 0x34 && host.images[8] == 0xFF);
}

/* Case 5's write, then 0Fh and 8 bits that are no byte of its address. */
static void test_short_address(void)
{
    set_up(&host, "1");
    SKIP(&host, WRITE_SCRATCHPAD, 0x06, 0x00, 0x12, 0x34);
    SKIP(&host, WRITE_SCRATCHPAD, 0x20);
    check("a short address: 06 00 27", read_registers() == 0x060027);
    SKIP(&host, COPY_SCRATCHPAD, 0x06, 0x00, 0x27);
    check("a short address: copy 06 00 27, ones", host_read(&host) == 0xFF && read_registers() == 0x060027);
    check("a short address: nothing written", is_erased());
    SKIP(&host, WRITE_SCRATCHPAD, 0x06, 0x00, 0x12, 0x34);
    SKIP(&host, COPY_SCRATCHPAD, 0x06, 0x00, 0x07);
    SKIP(&host, WRITE_SCRATCHPAD, 0x20);
    check("a short address after a copy: 06 00 A7", read_registers() == 0x0600A7);
}

static void test_case_6(void)
{
    set_up(&host, "1");
    host.images[0x0A00] = 0x55;
    SKIP(&host, WRITE_SCRATCHPAD, 0x06, 0x00, 0x12, 0x34);
    SKIP(&host, COPY_SCRATCHPAD, 0x06, 0x00, 0x07);
    check("case 6: a held block, 0 1 0 1 and AA", host_read(&host) == 0xAA && read_es() == 0x87);
    check("case 6: FFh stays", host.images[6] == 0xFF && host.images[7] == 0xFF);
    host.images[0x0A1E] = 0xAA;
    SKIP(&host, WRITE_SCRATCHPAD, 0x06, 0x00, 0x12, 0x34);
    SKIP(&host, COPY_SCRATCHPAD, 0x06, 0x00, 0x07);
    check("case 6: closed, no copy", host_read(&host) == 0xFF && read_es() == 0x07);
}

static void test_case_7(void)
{
    set_up(&host, "1");
    host.images[0x0A00] = 0xAA;
    host.images[6] = 0xF0;
    SKIP(&host, WRITE_SCRATCHPAD, 0x06, 0x00, 0x3C);
    check("case 7: 30h in the scratchpad", host.pads[6] == 0x30);
    SKIP(&host, COPY_SCRATCHPAD, 0x06, 0x00, 0x06);
    check("case 7: 30h in the memory", host_read(&host) == 0xAA && host.images[6] == 0x30);
}

static void test_case_8(void)
{
    static const uint8_t first[CODE_SIZE] = {1};
    set_up(&host, "22");
    SKIP(&host, PIO_ACCESS_READ);
    check("case 8: all open, 0Fh", host_read(&host) == 0x0F);
    host_match(&host, first);
    host_write(&host, PIO_ACCESS_WRITE);
    host_write(&host, 0xFE);
    host_write(&host, 0x01);
    check("case 8: FEh 01h, AAh 3Ch", host_read(&host) == 0xAA && host_read(&host) == 0x3C);
    SKIP(&host, PIO_ACCESS_READ);
    check("case 8: 0Fh and 3Ch together, 0Ch", host_read(&host) == 0x0C);
    set_up(&host, "2");
    check("case 8: A held low outside", host_event(&host, TK_LEVELS, 0, 2) == 1);
    SKIP(&host, PIO_ACCESS_READ);
    check("case 8: A held low outside, 1Eh", host_read(&host) == 0x1E);
}

static void test_case_9(void)
{
    static struct host held;
    set_up(&host, "1");
    SKIP(&host, WRITE_SCRATCHPAD, 0x00, 0x00, 0x12);
    SKIP(&host, WRITE_SCRATCHPAD, 0x20, 0x01);
    check("case 9: address only, E/S 00h", read_es() == 0x00);
    held = host;
    SKIP(&host, COPY_SCRATCHPAD, 0x20, 0x01, 0x00);
    check("case 9: one old byte",
          host_read(&host) == 0xAA && host.images[0x0120] == 0x12 && host.images[0x0121] == 0xFF);
    held.images[0x0A01] = 0x55;
    SKIP(&held, COPY_SCRATCHPAD, 0x20, 0x01, 0x00);
    check("case 9: a held byte stays", host_read(&held) == 0xAA && held.images[0x0120] == 0xFF);
}

void test_cases(void)
{
    test_search_cases();
    test_after_trouble();
    test_case_4();
    test_case_5();
    test_short_address();
    test_case_6();
    test_case_7();
    test_case_8();
    test_case_9();
}
