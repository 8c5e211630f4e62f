/*
 * Runs of slots. Each is held against the same slots by tk_event on a copy of the line: equal table, images, scratchpads
 * and bits. All that is lent ends at a page without access.
 */
#include "check.h"
#include "pieces.h"

/* The bytes of the longest run. */
#define MOST_BYTES ((TK_MOST_SLOTS + 7) / 8)

static struct host host;
static struct piece table, bits, answers, images, pads;

/* The bytes of so many slots. */
static size_t bytes_of(size_t slots) { return slots / 8 + (slots % 8 != 0); }

/* The bit of a slot. */
static unsigned bit_at(const uint8_t *bytes, size_t slot) { return bytes[slot / 8] >> slot % 8 & 1; }

/* Sets the bit of a slot. */
static void set_bit(uint8_t *bytes, size_t slot, unsigned bit)
{
    unsigned others = bytes[slot / 8] & ~(1u << slot % 8);
    bytes[slot / 8] = (uint8_t)(others | bit << slot % 8);
}

/* Copies so many bits, from a slot on, to the front of other bytes, whose other bits stay. */
static void cut_out(uint8_t *out, const uint8_t *bytes, size_t first, size_t slots)
{
    for (size_t i = 0; i < slots; i++)
        set_bit(out, i, bit_at(bytes, first + i));
}

/* Lends a line, and bits and answers of so many bytes. */
static void lend(const struct host *line, size_t bits_size, size_t answers_size)
{
    fill(&table, line->table, line->table_size);
    fill(&images, line->images, line->images_size);
    fill(&pads, line->pads, line->pads_size);
    resize(&bits, bits_size);
    resize(&answers, answers_size);
}

/* A run on what is lent. */
static int32_t run(size_t slots)
{
    return tk_slots(table.bytes, table.size, bits.bytes, bits.size, answers.bytes, answers.size, slots, images.bytes,
                    images.size, pads.bytes, pads.size);
}

/* Whether the lent line is this one, and nothing was written before a piece. */
static bool line_is(const struct host *line)
{
    return memcmp(table.bytes, line->table, table.size) == 0 && memcmp(images.bytes, line->images, images.size) == 0 &&
           memcmp(pads.bytes, line->pads, pads.size) == 0 && kept_before(&table) && kept_before(&images) &&
           kept_before(&pads) && kept_before(&bits) && kept_before(&answers);
}

/* A history: what the host writes after a reset, and what the line came to by tk_event. */
struct history {
    uint8_t script[MOST_BYTES], values[MOST_BYTES];
};

/* Puts one slot of a history on a line by tk_event. */
static void put_slot(struct host *line, struct history *history, size_t slot)
{
    set_bit(history->values, slot, host_slot(line, bit_at(history->script, slot)));
}

/*
 * Puts some slots of a history on a line as one run, the host bits past it all 0 or all 1; whether it comes to the line
 * and to the bits that tk_event has come to.
 */
static bool run_comes_to(const struct host *line, const struct history *history, size_t first, size_t slots,
                         uint8_t past, const struct host *wanted)
{
    static uint8_t given[MOST_BYTES], want[MOST_BYTES];
    size_t size = bytes_of(slots);
    memset(given, past, size);
    memset(want, 0, size);
    cut_out(given, history->script, first, slots);
    cut_out(want, history->values, first, slots);
    lend(line, size, size);
    memcpy(bits.bytes, given, size);
    memset(answers.bytes, 0xFF, size);
    return run(slots) == (int32_t)slots && line_is(wanted) && memcmp(answers.bytes, want, size) == 0 &&
           memcmp(bits.bytes, given, size) == 0;
}

/* How many slots by tk_event have found a chip at each step. */
static unsigned met[256];

/* Counts the step of each chip. */
static void note_steps(void)
{
    for (size_t at = 0; at < host.table_size; at += TK_RECORD_SIZE)
        met[host.table[at + 15]]++;
}

/* Resets the line and puts bytes on it; as one run, as two that are cut anywhere, and by tk_event it comes to the same. */
static void cut_anywhere(const char *name, const uint8_t *bytes, size_t size)
{
    static struct host start, end;
    static struct history history;
    size_t slots = 8 * size;
    host_reset(&host);
    start = end = host;
    memcpy(history.script, bytes, size);
    for (size_t i = 0; i < slots; i++)
        put_slot(&end, &history, i);
    bool good = true;
    for (size_t cut = 0; cut < slots; cut++) {
        uint8_t past = cut % 2 == 0 ? 0xFF : 0;
        good = good && run_comes_to(&start, &history, 0, cut, past, &host) &&
               run_comes_to(&host, &history, cut, slots - cut, past, &end);
        note_steps();
        put_slot(&host, &history, cut);
    }
    check(name, good && run_comes_to(&start, &history, 0, slots, 0, &end));
}

/* cut_anywhere of the bytes that follow. */
#define CUT(name, ...) cut_anywhere(name, (const uint8_t[]){__VA_ARGS__}, sizeof((const uint8_t[]){__VA_ARGS__}))
#define ONES4 0xFF, 0xFF, 0xFF, 0xFF
#define CODE(first) first, 0, 0, 0, 0, 0, 0, 0

/* Sessions through every step, on a line of four with chips before and behind the one that is spoken to. */
static void test_cuts(void)
{
    static const uint8_t steps[] = {0, 1, 2, 3, 4, 5, 16, 17, 18, 19, 20, 21, 22, 23, 24, 25, 26, 32, 33, 34, 35, 36};
    set_up(&host, "1212");
    for (size_t i = 0; i < host.images_size; i++)
        host.images[i] = (uint8_t)(i * 37 >> 2 | 0xC3);
    memset(host.images + 0x0A00, 0xFF, 32);
    memset(host.images + TK_IMAGE_SIZE + 0x0A00, 0xFF, 32);
    CUT("cut: Read ROM", 0x33, ONES4, ONES4, 0xAA, ONES4);
    CUT("cut: Search ROM", 0xF0, ONES4, ONES4, ONES4, ONES4, ONES4, ONES4, 0xAA, 0xFF);
    CUT("cut: Search ROM to no code", 0xF0, 0, 0, 0, 0, ONES4);
    CUT("cut: Write Scratchpad, data", 0x55, CODE(3), 0x0F, 0x06, 0x00, 0x12, 0x34);
    CUT("cut: Resume, Read Scratchpad", 0xA5, 0xAA, ONES4, ONES4, ONES4, ONES4, ONES4, ONES4, ONES4, ONES4);
    CUT("cut: Copy Scratchpad", 0x55, CODE(3), 0x55, 0x06, 0x00, 0x07, ONES4);
    CUT("cut: Copy Scratchpad by another E/S", 0x55, CODE(3), 0x55, 0x06, 0x00, 0x07, ONES4);
    CUT("cut: Read Memory", 0x55, CODE(3), 0xF0, 0x04, 0x00, ONES4, ONES4);
    CUT("cut: Read Memory to the last address", 0x55, CODE(1), 0xF0, 0x3D, 0x0A, ONES4, ONES4);
    CUT("cut: Write Scratchpad by both memories, to its CRC-16", 0xCC, 0x0F, 0xFD, 0x02, 0x81, 0x42, 0x24, ONES4);
    CUT("cut: Read Scratchpad by both memories", 0xCC, 0xAA, ONES4, ONES4, ONES4);
    CUT("cut: Copy Scratchpad by both memories", 0xCC, 0x55, 0xFD, 0x02, 0x1F, ONES4);
    CUT("cut: PIO Access Write", 0x55, CODE(2), 0x5A, 0xFE, 0x01, 0xFF, 0xFF, 0xFD, 0x02, 0xFF, 0xFF, 0xFF, 0xFF, 0xFF);
    CUT("cut: PIO Access Read by both switches", 0xCC, 0xF5, ONES4);
    CUT("cut: a code that no chip has", 0x55, CODE(9), ONES4);
    check("cut: the copies were carried out", host.images[TK_IMAGE_SIZE + 6] == 0x12 && host.images[0x02FE] == 0x42 &&
                                                  host.images[TK_IMAGE_SIZE + 0x02FF] == 0x24);
    bool every = true;
    for (size_t i = 0; i < sizeof steps; i++)
        every = every && met[steps[i]] > 0;
    check("cut: every step was met", every);
    check("cut: a latch was set", host.table[TK_RECORD_SIZE + 13] == 1);
}

/* Runs of a few slots and of the most: PIO Access Write again and again, the latches other each time. */
static void test_lengths(void)
{
    static const struct {
        const char *name;
        size_t slots;
    } lengths[] = {
        {"a run of 0 slots",      0     },
        {"a run of 1 slot",       1     },
        {"a run of 7 slots",      7     },
        {"a run of 8 slots",      8     },
        {"a run of 9 slots",      9     },
        {"a run of 65,535 slots", 65535 },
    };
    static struct history history;
    static struct host start;
    for (size_t i = 0; i + 4 <= MOST_BYTES; i += 4) {
        uint8_t byte = (uint8_t)(0xFC | i / 4 * 7 >> 1);
        memcpy(history.script + i, (const uint8_t[]){byte, (uint8_t)~byte, 0xFF, 0xFF}, 4);
    }
    set_up(&host, "12");
    SKIP(&host, PIO_ACCESS_WRITE);
    start = host;
    size_t done = 0;
    for (size_t i = 0; i < sizeof lengths / sizeof *lengths; i++) {
        for (; done < lengths[i].slots; done++)
            put_slot(&host, &history, done);
        check(lengths[i].name, run_comes_to(&start, &history, 0, done, 0xFF, &host));
    }
    check("65,535 slots: the switch has gone on", host.table[TK_RECORD_SIZE + 15] == 36);
}

/* Whether a run on the line is refused by a number and every lent byte stays. */
static bool refused(size_t slots, size_t bits_size, size_t answers_size, int32_t refusal)
{
    static uint8_t any[ROOM];
    memset(any, 0x5A, sizeof any);
    lend(&host, bits_size, answers_size);
    memset(bits.bytes, 0x5A, bits.size);
    memset(answers.bytes, 0x5A, answers.size);
    return run(slots) == -refusal && line_is(&host) && memcmp(bits.bytes, any, bits.size) == 0 &&
           memcmp(answers.bytes, any, answers.size) == 0;
}

/* Bits or answers of another size than the slots ask, and more slots than a run has, in numbers that wrap too. */
static void test_run_sizes(void)
{
    static const struct {
        const char *name;
        size_t slots, bits, answers;
    } runs[] = {
        {"5: no slots, a byte of bits",                         0,                     1,          0         },
        {"5: no slots, a byte of answers",                      0,                     0,          1         },
        {"5: no slots, a byte of both",                         0,                     1,          1         },
        {"5: a slot, no bits",                                  1,                     0,          1         },
        {"5: a slot, no answers",                               1,                     1,          0         },
        {"5: 7 slots, neither",                                 7,                     0,          0         },
        {"5: 8 slots, two bytes of bits",                       8,                     2,          1         },
        {"5: 8 slots, two bytes of answers",                    8,                     1,          2         },
        {"5: 8 slots, two bytes of both",                       8,                     2,          2         },
        {"5: 9 slots, a byte of bits",                          9,                     1,          2         },
        {"5: 9 slots, a byte of answers",                       9,                     2,          1         },
        {"5: 9 slots, a byte of both",                          9,                     1,          1         },
        {"5: 9 slots, three bytes of bits",                     9,                     3,          2         },
        {"5: 9 slots, three bytes of answers",                  9,                     2,          3         },
        {"5: a byte for each slot",                             8,                     8,          8         },
        {"5: 65,535 slots, a byte of bits short",               TK_MOST_SLOTS,         8191,       8192      },
        {"5: 65,535 slots, a byte of answers short",            TK_MOST_SLOTS,         8192,       8191      },
        {"5: 65,536 slots",                                     65536,                 8192,       8192      },
        {"5: 65,537 slots",                                     65537,                 8193,       8193      },
        {"5: 65,544 slots, by their low 16 bits a byte",        65544,                 1,          1         },
        {"5: 65,536 slots, by their low 16 bits none",          65536,                 0,          0         },
        {"5: 2^32 slots and 8, by their low 32 bits a byte",    ((size_t)1 << 32) + 8, 1,          1         },
        {"5: slots that wrap when they are rounded up",         SIZE_MAX,              0,          0         },
        {"5: the first slots that wrap",                        SIZE_MAX - 6,          0,          0         },
    };
    set_up(&host, "121");
    SKIP(&host, READ_SCRATCHPAD);
    for (size_t i = 0; i < sizeof runs / sizeof *runs; i++)
        check(runs[i].name, refused(runs[i].slots, runs[i].bits, runs[i].answers, TK_WRONG_SIZE));
}

/* The other lent pieces, one by one, and the order of refusals. */
static void test_run_refusals(void)
{
    set_up(&host, "121");
    SKIP(&host, READ_SCRATCHPAD);
    host.images_size--;
    check("5: a run, images one byte short", refused(9, 2, 2, TK_WRONG_SIZE));
    host.images_size += 2;
    check("5: a run, images one byte long", refused(9, 2, 2, TK_WRONG_SIZE));
    check("5: a run of no slots, images one byte long", refused(0, 0, 0, TK_WRONG_SIZE));
    host.images_size--;
    host.pads_size--;
    check("5: a run, pads one byte short", refused(9, 2, 2, TK_WRONG_SIZE));
    host.pads_size += 2;
    check("5: a run, pads one byte long", refused(9, 2, 2, TK_WRONG_SIZE));
    check("5: a run of no slots, pads one byte long", refused(0, 0, 0, TK_WRONG_SIZE));
    host.table[2 * TK_RECORD_SIZE + 12] |= 0x40;
    check("8 before 5: pads", refused(9, 2, 2, TK_OUT_OF_RANGE));
    host.pads_size--;
    check("8: a run of no slots", refused(0, 0, 0, TK_OUT_OF_RANGE));
    check("8 before 5: bits", refused(9, 1, 2, TK_OUT_OF_RANGE));
    check("8 before 5: answers", refused(9, 2, 3, TK_OUT_OF_RANGE));
    check("8 before 5: slots", refused(65536, 8192, 8192, TK_OUT_OF_RANGE));
    host.table[2 * TK_RECORD_SIZE + 12] &= 0xBF;
    host.table_size--;
    check("8: a run, a byte short of three records", refused(9, 2, 2, TK_OUT_OF_RANGE));
    host.table_size++;
    lend(&host, 2, 2);
    check("a run that is right is not refused", run(9) == 9);
}

/* On no chips a run comes to what the host writes. */
static void test_run_of_no_chips(void)
{
    set_up(&host, "");
    lend(&host, 2, 2);
    memcpy(bits.bytes, (const uint8_t[]){0xA6, 0xFD}, 2);
    memset(answers.bytes, 0xFF, 2);
    check("no chips: a run of 11 slots", run(11) == 11 && answers.bytes[0] == 0xA6 && answers.bytes[1] == 0x05);
    check("no chips: a run of no slots", refused(0, 0, 0, 0));
}

void test_slots(void)
{
    table = new_piece();
    bits = new_piece();
    answers = new_piece();
    images = new_piece();
    pads = new_piece();
    test_cuts();
    test_lengths();
    test_run_sizes();
    test_run_refusals();
    test_run_of_no_chips();
}
