/* Sessions by chance. */
#include "sessions.h"

#include "random.h"

/* The slots that this session may still have: what comes after is cut off, up to the next reset. */
static unsigned left;

static void put_bit(unsigned bit)
{
    if (left > 0) {
        left--;
        put_slot(bit);
    }
}

static void put_byte(unsigned byte)
{
    for (int i = 0; i < 8; i++)
        put_bit(byte >> i & 1);
}

static void put_address(unsigned address)
{
    put_byte(address & 0xFF);
    put_byte(address >> 8);
}

static void put_reads(unsigned bytes)
{
    while (bytes-- > 0)
        put_byte(0xFF);
}

static void put_garbage(unsigned slots)
{
    while (slots-- > 0)
        put_bit(below(2));
}

/* ---- opening a session */

/* The bit of a code. */
static unsigned code_bit(const uint8_t *code, int place) { return code[place / 8] >> place % 8 & 1; }

/* Match ROM, or Search ROM that goes to this code; now and then a bit is another. */
static void put_match(const uint8_t *code)
{
    int wrong = one_in(8) ? (int)below(64) : -1;
    put_byte(0x55);
    for (int i = 0; i < 64; i++)
        put_bit(code_bit(code, i) ^ (i == wrong));
}

static void put_search(const uint8_t *code)
{
    int wrong = one_in(4) ? (int)below(64) : -1;
    put_byte(0xF0);
    for (int i = 0; i < 64; i++) {
        put_bit(1);
        put_bit(1);
        put_bit(code_bit(code, i) ^ (i == wrong));
    }
}

/* A reset and a ROM command for the chip of a code; the session is cut now and then. */
static void open_session(const uint8_t *code)
{
    left = one_in(6) ? below(400) : 100000;
    put_event(TK_RESET, 0, 0);
    switch (below(16)) {
    case 0:
        put_byte(0x33);
        put_reads(8);
        break;
    case 1:
        put_search(code);
        break;
    case 2:
        put_byte(below(256));
        break;
    case 3:
    case 4:
        put_byte(0xCC);
        break;
    case 5:
    case 6:
    case 7:
        put_byte(0xA5);
        break;
    default:
        put_match(code);
    }
}

/* ---- what is done with a chip */

/* An address: most often that of a data byte, also of a control byte, and one where there is nothing. */
static unsigned any_address(void)
{
    switch (below(8)) {
    case 0:
        return below(0x10000);
    case 1:
    case 2:
        return 0x0A00 + below(0x40);
    case 3:
        return below(0x0A00) & ~0x1Fu;
    default:
        return below(0x0A00);
    }
}

/* A byte of data, often a mark. */
static unsigned any_data(void) { return one_in(4) ? (one_in(2) ? 0x55 : 0xAA) : below(256); }

/* Write Scratchpad, to its end or not, then Read and Copy Scratchpad, mostly with what was written; Read Memory. */
static void use_memory(const uint8_t *code)
{
    unsigned address = any_address(), first = address % TK_PAD_SIZE, bytes = TK_PAD_SIZE - first;
    if (one_in(3))
        bytes = 1 + below(bytes);
    open_session(code);
    put_byte(0x0F);
    put_address(address);
    for (unsigned i = 0; i < bytes; i++)
        put_byte(any_data());
    put_reads(one_in(2) ? 2 : below(4));
    if (one_in(2)) {
        open_session(code);
        put_byte(0xAA);
        put_reads(below(40));
    }
    open_session(code);
    put_byte(0x55);
    put_address(one_in(8) ? any_address() : address);
    put_byte(one_in(8) ? below(256) : first + bytes - 1);
    put_reads(below(3));
    open_session(code);
    put_byte(0xF0);
    put_address(one_in(2) ? address : any_address());
    put_reads(one_in(100) ? 3000 : below(50));
}

/* PIO Access Read and Write, over and over in one session. */
static void use_switch(const uint8_t *code)
{
    open_session(code);
    if (one_in(2)) {
        put_byte(0xF5);
        put_reads(below(4));
        return;
    }
    put_byte(0x5A);
    for (unsigned i = below(4); i > 0; i--) {
        unsigned byte = below(256);
        put_byte(byte);
        put_byte(one_in(8) ? below(256) : byte ^ 0xFF);
        put_reads(2);
    }
}

void any_session(const struct line *line)
{
    static const uint8_t none[8];
    unsigned chip = line->chips == 0 ? 0 : below((unsigned)line->chips);
    const uint8_t *record = line->chips == 0 ? none : line->table + chip * TK_RECORD_SIZE;
    left = 100000;
    switch (below(16)) {
    case 0:
        put_event(TK_POWER_ON, 0, 0);
        break;
    case 1:
    case 2:
        put_event(TK_LEVELS, chip, below(5));
        break;
    case 3:
        put_garbage(one_in(50) ? 70000 : below(300));
        break;
    case 4:
        open_session(record);
        put_byte(below(256));
        put_garbage(below(300));
        break;
    default:
        if (line->chips > 0 && record[8] == TK_DS28EC20)
            use_memory(record);
        else
            use_switch(record);
    }
}
