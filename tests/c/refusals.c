/* Events, runs and searches: the empty line, each refusal by its number, and that a refused call changes no byte. */
#include "check.h"

static struct host host, before;
static uint64_t list[20], list_before[20], resets, slots;

/* Whether an event is refused by a number and every lent byte stays. */
static bool event_refused(uint32_t event, uint32_t chip, uint32_t levels, int32_t refusal)
{
    before = host;
    return host_event(&host, event, chip, levels) == -refusal && memcmp(&host, &before, sizeof host) == 0;
}

/* Whether a run of 16 slots is refused by a number and every lent byte stays, those of the answers too. */
static bool run_refused(int32_t refusal)
{
    static const uint8_t bits[2] = {0xCC, 0x0F}, any[2] = {0x3C, 0xA5};
    uint8_t answers[2] = {0x3C, 0xA5};
    before = host;
    return tk_slots(host.table, host.table_size, bits, 2, answers, 2, 16, host.images, host.images_size, host.pads,
                    host.pads_size) == -refusal &&
           memcmp(&host, &before, sizeof host) == 0 && memcmp(answers, any, sizeof any) == 0;
}

/* Searches with so many places; the list holds other numbers before. */
static int32_t search(size_t places)
{
    before = host;
    resets = slots = 77;
    memset(list, 0xDD, sizeof list);
    memcpy(list_before, list, sizeof list);
    return tk_search(host.table, host.table_size, list, places, host.images, host.images_size, host.pads,
                     host.pads_size, &resets, &slots);
}

/* Whether a search is refused before any event: counts 0, and every lent byte stays. */
static bool search_refused(int32_t refusal)
{
    return search(16) == -refusal && resets == 0 && slots == 0 && memcmp(&host, &before, sizeof host) == 0 &&
           memcmp(list, list_before, sizeof list) == 0;
}

/* Whether reset, power on, run and search are all refused by a number. */
static bool all_refused(int32_t refusal)
{
    return event_refused(TK_RESET, 0, 0, refusal) && event_refused(TK_POWER_ON, 0, 0, refusal) &&
           event_refused(99, 99, 99, refusal) && run_refused(refusal) && search_refused(refusal);
}

static void test_empty_line(void)
{
    set_up(&host, "");
    check("no chips: a reset answers 1", host_event(&host, TK_RESET, 0, 0) == 1);
    check("no chips: a slot answers the host's bit",
          host_event(&host, TK_WRITE_0, 0, 0) == 0 && host_event(&host, TK_WRITE_1, 0, 0) == 1);
    check("no chips: power on answers 1", host_event(&host, TK_POWER_ON, 0, 0) == 1);
    check("no chips: event 4 names none", event_refused(TK_LEVELS, 0, 0, TK_NO_SUCH_LEVELS));
    check("no chips: no codes, a reset, no slots", search(16) == 0 && resets == 1 && slots == 0);
    check("no chips and no places: the same", search(0) == 0 && resets == 1 && slots == 0);
    check("no chips: the list stays", memcmp(list, list_before, sizeof list) == 0);
    host.pads_size = 1;
    check("5: no chips, but a pad", all_refused(TK_WRONG_SIZE));
}

static void test_events(void)
{
    set_up(&host, "121");
    check("6: event 5", event_refused(5, 0, 0, TK_NO_SUCH_EVENT));
    check("6: event 260, no event 4", event_refused(260, 1, 0, TK_NO_SUCH_EVENT));
    check("6: the largest event", event_refused(UINT32_MAX, 1, 0, TK_NO_SUCH_EVENT));
    check("7: an absent chip", event_refused(TK_LEVELS, 3, 0, TK_NO_SUCH_LEVELS));
    check("7: chip 257, no chip 1", event_refused(TK_LEVELS, 257, 0, TK_NO_SUCH_LEVELS));
    check("7: the largest chip", event_refused(TK_LEVELS, UINT32_MAX, 0, TK_NO_SUCH_LEVELS));
    check("7: a chip of kind 1", event_refused(TK_LEVELS, 0, 0, TK_NO_SUCH_LEVELS));
    check("7: levels 4", event_refused(TK_LEVELS, 1, 4, TK_NO_SUCH_LEVELS));
    check("7: levels 256", event_refused(TK_LEVELS, 1, 256, TK_NO_SUCH_LEVELS));
    check("event 4 answers 1", host_event(&host, TK_LEVELS, 1, 2) == 1 && host.table[TK_RECORD_SIZE + 14] == 2);
    check("chip and levels are not read in other events", host_event(&host, TK_RESET, 99, 99) == 0);
}

static void test_wrong_sizes(void)
{
    set_up(&host, "121");
    host.images_size--;
    check("5: images one byte short", all_refused(TK_WRONG_SIZE));
    host.images_size += 2;
    check("5: images one byte long", all_refused(TK_WRONG_SIZE));
    host.images_size--;
    host.pads_size--;
    check("5: pads one byte short", all_refused(TK_WRONG_SIZE));
    host.pads_size += 2;
    check("5: pads one byte long", all_refused(TK_WRONG_SIZE));
    host.pads_size = 0;
    check("5: no pads", all_refused(TK_WRONG_SIZE));
    host.table[12] = 0x40;
    check("8 comes before 5", all_refused(TK_OUT_OF_RANGE));
}

/* One byte of the second record made wrong. */
static void test_no_records(void)
{
    static const struct {
        const char *name;
        uint8_t at, value;
    } faults[] = {
        {"8: kind 0",             8,  0   },
        {"8: kind 3",             8,  3   },
        {"8: RC 2",               9,  2   },
        {"8: E/S bit 6",          12, 0x40},
        {"8: latches 4",          13, 4   },
        {"8: levels 4",           14, 4   },
        {"8: step 6",             15, 6   },
        {"8: step 15",            15, 15  },
        {"8: step 27",            15, 27  },
        {"8: step 31",            15, 31  },
        {"8: step 37",            15, 37  },
        {"8: step 255",           15, 255 },
        {"8: a step of a memory", 15, 16  },
        {"8: w, low byte",        16, 1   },
        {"8: w, high byte",       17, 1   },
        {"8: a",                  18, 1   },
        {"8: b",                  19, 1   },
        {"8: c",                  20, 1   },
        {"8: byte 21",            21, 1   },
        {"8: byte 22",            22, 1   },
        {"8: byte 23",            23, 1   },
        {"8: byte 24",            24, 1   },
        {"8: byte 27",            27, 1   },
        {"8: byte 30",            30, 1   },
        {"8: byte 31",            31, 1   },
    };
    for (size_t i = 0; i < sizeof faults / sizeof *faults; i++) {
        set_up(&host, "121");
        host.table[TK_RECORD_SIZE + faults[i].at] = faults[i].value;
        check(faults[i].name, all_refused(TK_OUT_OF_RANGE));
    }
}

static void test_table_lengths(void)
{
    static uint8_t table[17 * TK_RECORD_SIZE], copy[17 * TK_RECORD_SIZE];
    set_up(&host, "12");
    host.table_size++;
    check("8: a byte over two records", all_refused(TK_OUT_OF_RANGE));
    host.table_size -= 2;
    check("8: a byte short of two records", all_refused(TK_OUT_OF_RANGE));
    for (size_t i = 0; i < 17; i++)
        memcpy(table + i * TK_RECORD_SIZE, host.table + TK_RECORD_SIZE, TK_RECORD_SIZE);
    memcpy(copy, table, sizeof table);
    uint8_t none[1];
    check("16 switches answer a reset", tk_event(table, 16 * TK_RECORD_SIZE, TK_RESET, 0, 0, none, 0, none, 0) == 0);
    memcpy(table, copy, sizeof table);
    check("8: 17 records", tk_event(table, sizeof table, TK_RESET, 0, 0, none, 0, none, 0) == -TK_OUT_OF_RANGE);
    check("8: 17 records, a run", tk_slots(table, sizeof table, none, 0, none, 0, 0, none, 0, none, 0) == -TK_OUT_OF_RANGE);
    check("8: 17 records stay", memcmp(table, copy, sizeof table) == 0);
}

static void test_searches(void)
{
    set_up(&host, "1212");
    check("4: no places, one reset", search(0) == -TK_TOO_FEW_PLACES && resets == 1 && slots == 0);
    check("4: no places, the list stays", memcmp(list, list_before, sizeof list) == 0);
    check("4: two places are filled", search(2) == -TK_TOO_FEW_PLACES && list[0] == 4 && list[1] == 2);
    check("4: two passes", resets == 2 && slots == 2 * TK_CODE_SLOTS);
    check("4: the list's end stays", memcmp(list + 2, list_before + 2, sizeof list - 16) == 0);
    check("four codes in four places", search(4) == 4 && resets == 4 && slots == 4 * TK_CODE_SLOTS);
    check("branch order", list[0] == 4 && list[1] == 2 && list[2] == 1 && list[3] == 3);
    check("20 places", search(20) == 4 && resets == 4 && memcmp(list + 4, list_before + 4, sizeof list - 32) == 0);
    memcpy(host.table + TK_RECORD_SIZE, host.table, 8);
    check("equal codes are listed once", search(16) == 3 && slots == 3 * TK_CODE_SLOTS);
}

void test_refusals(void)
{
    test_empty_line();
    test_events();
    test_wrong_sizes();
    test_no_records();
    test_table_lengths();
    test_searches();
}
