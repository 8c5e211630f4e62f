/* The ways to put a round on a line. */
#include "ways.h"

#include <stdlib.h>
#include <string.h>

#include "plain.h"

const struct model models[MODELS] = {
    {"library", tk_event,    tk_slots   },
    {"plain",   plain_event, plain_slots},
    {"structs", NULL,        NULL       },
};
const size_t calls[CALLS] = {256, 8, 0};
const char *const mixes[MIXES] = {"whole", "opened"};

struct line line;
struct answers answers[MOST_SESSIONS];
struct round now_put;
int refused;

/* The table when each session of a round has been opened. */
static uint8_t opened[MOST_SESSIONS][TK_MOST_CHIPS * TK_RECORD_SIZE];

/* ---- putting rounds on the line */

static int32_t put_event(const struct model *model, uint32_t event)
{
    return model->event(line.table, line.table_size, event, 0, 0, line.images, line.images_size, line.pads,
                        line.pads_size);
}

static void put_run(const struct model *model, const uint8_t *bits, uint8_t *of_runs, size_t slots)
{
    size_t size = (slots + 7) / 8;
    refused |= model->slots(line.table, line.table_size, bits, size, of_runs, size, slots, line.images,
                            line.images_size, line.pads, line.pads_size) != (int32_t)slots;
}

/* The slots of a session from one on. */
static void put_slots(const struct model *model, size_t call, size_t which, size_t from)
{
    const struct session *session = &now_put.session[which];
    struct answers *to = &answers[which];
    if (call == 0)
        for (size_t i = from; i < session->slots; i++)
            to->of_events[i] = (uint8_t)put_event(model, session->events[i]);
    else
        for (size_t i = from; i < session->slots; i += call)
            put_run(model, session->bits + i / 8, to->of_runs + i / 8,
                    session->slots - i < call ? session->slots - i : call);
}

/* The same in structs, with the reset. */
static void put_in_structs(size_t which)
{
    plain_line_event(&line.structs, TK_RESET, 0, 0);
    for (size_t i = 0; i < now_put.session[which].slots; i++)
        answers[which].of_events[i] =
            (uint8_t)plain_line_event(&line.structs, now_put.session[which].events[i], 0, 0);
}

static void put_session(const struct model *model, size_t call, int mix, size_t which)
{
    if (model->event == NULL) {
        put_in_structs(which);
    } else if (mix == OPENED) {
        memcpy(line.table, opened[which], line.table_size);
        put_slots(model, call, which, OPENING);
    } else {
        put_event(model, TK_RESET);
        put_slots(model, call, which, 0);
    }
}

/* The sessions of a mix. */
static size_t sessions_of(int mix) { return mix == OPENED ? MEMORY_SESSIONS : now_put.sessions; }

void put_rounds(const struct model *model, size_t call, int mix, size_t rounds)
{
    for (size_t round = 0; round < rounds; round++)
        for (size_t i = 0; i < sessions_of(mix); i++)
            put_session(model, call, mix, i);
    if (model->event == NULL)
        memcpy(line.table, line.structs.chips, line.table_size);
}

size_t events_of(int mix, size_t *resets)
{
    size_t slots = 0;
    for (size_t i = 0; i < sessions_of(mix); i++)
        slots += now_put.session[i].slots - (mix == OPENED ? OPENING : 0);
    *resets = mix == OPENED ? 0 : sessions_of(mix);
    return slots + *resets;
}

/* ---- the line */

/* Keeps the table at each session's opening, when one round has gone before. */
static void keep_opened(void)
{
    const struct model *plain = &models[PLAIN];
    put_rounds(plain, 0, WHOLE, 1);
    for (size_t i = 0; i < now_put.sessions; i++) {
        put_event(plain, TK_RESET);
        for (size_t at = 0; at < OPENING; at++)
            put_event(plain, now_put.session[i].events[at]);
        memcpy(opened[i], line.table, line.table_size);
        put_slots(plain, 0, i, OPENING);
    }
}

void set_up(unsigned chips)
{
    uint8_t card[TK_MOST_CHIPS * 12] = {0};
    size_t offset;
    if (chips > TK_MOST_CHIPS)
        exit(2);
    for (unsigned i = 0; i < chips; i++) {
        card[12 * i] = 10;
        card[12 * i + 2] = i % 4 == 3 ? TK_DS2413 : TK_DS28EC20;
        card[12 * i + 4] = (uint8_t)(i + 1);
    }
    memset(&line, 0, sizeof line);
    memset(line.images, 0xFF, sizeof line.images);
    if (tk_card(card, 12 * chips, line.table, sizeof line.table, &offset) != (int32_t)chips)
        exit(2);
    line.table_size = tk_table_size(chips);
    line.images_size = tk_images_size(line.table, line.table_size);
    line.pads_size = tk_pads_size(line.table, line.table_size);
    round_make(&now_put, chips / 2, chips > 3, 3);
    keep_opened();
    if (plain_line_take(&line.structs, line.table, line.table_size, line.images, line.images_size, line.pads,
                        line.pads_size) != 0)
        exit(2);
}
