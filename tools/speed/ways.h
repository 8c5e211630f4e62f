/* The ways to put a round of sessions on a line: by the library or the plain model, one event a call or in runs. */
#ifndef SPEED_WAYS_H
#define SPEED_WAYS_H

#include "line.h"
#include "round.h"
#include "toemsakun.h"

/* A model by its two calls; with neither it is the plain model on structs of its own. */
struct model {
    const char *name;
    int32_t (*event)(uint8_t *, size_t, uint32_t, uint32_t, uint32_t, uint8_t *, size_t, uint8_t *, size_t);
    int32_t (*slots)(uint8_t *, size_t, const uint8_t *, size_t, uint8_t *, size_t, size_t, uint8_t *, size_t,
                     uint8_t *, size_t);
};
#define MODELS 3
#define PLAIN 1
#define STRUCTS 2
extern const struct model models[MODELS];

/* A call: the most slots of a run, or 0 for one event a call. A reset is one event in either. */
#define CALLS 3
extern const size_t calls[CALLS];

/* A mix of a round: all of it, or of the sessions with a memory what comes after Match ROM. */
#define MIXES 2
#define WHOLE 0
#define OPENED 1
extern const char *const mixes[MIXES];

/* A line, lent or in structs. */
struct line {
    uint8_t table[TK_MOST_CHIPS * TK_RECORD_SIZE];
    uint8_t images[TK_MOST_IMAGES_SIZE];
    uint8_t pads[TK_MOST_PADS_SIZE];
    size_t table_size, images_size, pads_size;
    struct plain_line structs;
};
extern struct line line;

/* The answers to the slots of a session: a byte for each event, and those of runs packed. */
struct answers {
    uint8_t of_events[MOST_SLOTS];
    uint8_t of_runs[MOST_SLOTS / 8];
};
extern struct answers answers[MOST_SESSIONS];

/* The round that is put on the line. */
extern struct round now_put;

/* Whether a run was not put on the line whole. */
extern int refused;

/* Sets up a line: one memory, or three memories and a switch over and over. */
void set_up(unsigned chips);

/* Puts so many rounds on the line. The way in structs knows the whole round by events alone. */
void put_rounds(const struct model *model, size_t call, int mix, size_t rounds);

/* How many events a round has, and how many of these are resets. */
size_t events_of(int mix, size_t *resets);

#endif
