/* The sessions of a round. */
#include "round.h"

#include <stdlib.h>
#include <string.h>

#include "toemsakun.h"

static void add_byte(struct session *session, unsigned byte)
{
    if (session->slots + 8 > MOST_SLOTS)
        exit(2);
    session->bits[session->slots / 8] = (uint8_t)byte;
    for (int i = 0; i < 8; i++)
        session->events[session->slots++] = byte >> i & 1;
}

static void add_reads(struct session *session, int bytes)
{
    while (bytes-- > 0)
        add_byte(session, 0xFF);
}

/* A new session: Match ROM with the code of a chip, and bytes. */
static struct session *open_session(struct round *round, unsigned chip, const uint8_t *bytes, size_t size)
{
    if (round->sessions == MOST_SESSIONS)
        exit(2);
    struct session *session = &round->session[round->sessions++];
    add_byte(session, 0x55);
    add_byte(session, chip + 1);
    for (int i = 1; i < 8; i++)
        add_byte(session, 0);
    for (size_t i = 0; i < size; i++)
        add_byte(session, bytes[i]);
    return session;
}

#define SESSION(round, chip, ...)                                                                                      \
    open_session(round, chip, (const uint8_t[]){__VA_ARGS__}, sizeof((const uint8_t[]){__VA_ARGS__}))

void round_make(struct round *round, unsigned memory, int with_switch, unsigned pio)
{
    memset(round, 0, sizeof *round);
    struct session *write = SESSION(round, memory, 0x0F, 0x20, 0x00);
    for (unsigned i = 0; i < TK_PAD_SIZE; i++)
        add_byte(write, 180 + i);
    add_reads(write, 2);
    add_reads(SESSION(round, memory, 0xAA), 3 + TK_PAD_SIZE + 2);
    add_reads(SESSION(round, memory, 0x55, 0x20, 0x00, 0x1F), 1);
    add_reads(SESSION(round, memory, 0xF0, 0x20, 0x00), TK_PAD_SIZE);
    if (with_switch) {
        add_reads(SESSION(round, pio, 0x5A, 0xFE, 0x01), 2);
        add_reads(SESSION(round, pio, 0xF5), 1);
    }
}
