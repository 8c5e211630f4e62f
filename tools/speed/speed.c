/*
 * Measures the library beside the plain model, on a round of sessions.
 *
 *   speed                              times all, and prints lines
 *                                        time MODEL CALL MIX CHIPS NANOSECONDS   of one event
 *                                        real MIX CHIPS NANOSECONDS              what it takes on a real line
 *   speed MODEL CALL MIX CHIPS ROUNDS  only puts the rounds on the line, for a tool that counts instructions, and prints
 *                                      how many events a round has
 *
 * MODEL is library, plain (plain C on the same bytes) or structs (plain C that keeps structs of its own and checks
 * nothing). CALL is 0 for one event a call, or the most slots of a run; a reset is one event in either. MIX is whole, or
 * opened: of the sessions with a memory what comes after Match ROM, so that one chip is spoken to and the others wait.
 * Every way gets the same events, and must come to the same answers and the same bytes.
 */
#include <stdio.h>
#include <stdlib.h>
#include <string.h>
#include <time.h>

#include "ways.h"

/* A time is the best of so many tries of so many seconds, the models in turn. */
#define TRIES 10
#define SECONDS 0.04
/*
 * What a slot and a reset take on a real line, in seconds, as documents 01 and 002 cost them. It is the least: the sheet
 * of the DS28EC20 has 65e-6 for a slot, and more where several chips share the line.
 */
#define REAL_SLOT 61e-6
#define REAL_RESET 960e-6

/* ---- whether all come to the same */

/* Whether the answers are those that the plain model gave to single events, and no run was refused. */
static int same_answers(const struct answers *plain, size_t call)
{
    for (size_t i = 0; i < now_put.sessions; i++)
        for (size_t at = 0; at < now_put.session[i].slots; at++) {
            unsigned bit = answers[i].of_runs[at / 8] >> at % 8 & 1;
            if ((call == 0 ? answers[i].of_events[at] : bit) != plain[i].of_events[at])
                return 0;
        }
    return !refused;
}

/* Whether a model comes to the answers and bytes of the plain model in two rounds, and two of opened sessions. */
static int agrees(const struct model *model, size_t call, unsigned chips)
{
    static struct line plain_line;
    static struct answers plain_answers[MOST_SESSIONS];
    for (int plain = 1; plain >= 0; plain--) {
        set_up(chips);
        memset(answers, 0, sizeof answers);
        put_rounds(plain ? &models[PLAIN] : model, plain ? 0 : call, WHOLE, 2);
        if (model->slots != NULL)
            put_rounds(plain ? &models[PLAIN] : model, plain ? 0 : call, OPENED, 2);
        if (plain) {
            plain_line = line;
            memcpy(plain_answers, answers, sizeof answers);
        }
    }
    return same_answers(plain_answers, call) && memcmp(line.table, plain_line.table, sizeof line.table) == 0 &&
           memcmp(line.images, plain_line.images, sizeof line.images) == 0 &&
           memcmp(line.pads, plain_line.pads, sizeof line.pads) == 0;
}

/* ---- times */

/* Seconds that this program has had of a processor: others may be at work on the machine. */
static double now(void)
{
    struct timespec time;
    clock_gettime(CLOCK_PROCESS_CPUTIME_ID, &time);
    return (double)time.tv_sec + (double)time.tv_nsec * 1e-9;
}

/* Seconds of one round in one try. */
static double seconds_of(const struct model *model, size_t call, int mix)
{
    size_t rounds = 0;
    double start = now(), passed;
    do {
        put_rounds(model, call, mix, 2);
        rounds += 2;
    } while ((passed = now() - start) < SECONDS);
    return passed / (double)rounds;
}

/* Whether a model has such a way. */
static int has_way(int model, size_t call, int mix) { return model != STRUCTS || (call == 0 && mix == WHOLE); }

/* Times one call and one mix on a line. */
static void time_ways(unsigned chips, size_t call, int mix)
{
    double best[MODELS] = {1, 1, 1};
    size_t resets;
    for (int i = 0; i < MODELS * TRIES; i++) {
        int model = i % MODELS;
        if (!has_way(model, call, mix))
            continue;
        set_up(chips);
        double one = seconds_of(&models[model], call, mix);
        best[model] = one < best[model] ? one : best[model];
    }
    double events = (double)events_of(mix, &resets);
    for (int i = 0; i < MODELS; i++)
        if (has_way(i, call, mix))
            printf("time %s %zu %s %u %.2f\n", models[i].name, call, mixes[mix], chips, 1e9 * best[i] / events);
}

/* Times all on a line of so many chips. */
static void time_line(unsigned chips)
{
    size_t resets;
    for (int mix = 0; mix < MIXES; mix++) {
        for (int i = 0; i < CALLS; i++)
            time_ways(chips, calls[i], mix);
        double events = (double)events_of(mix, &resets), real = (double)resets * (REAL_RESET - REAL_SLOT) / events;
        printf("real %s %u %.0f\n", mixes[mix], chips, 1e9 * (real + REAL_SLOT));
    }
}

/* Puts rounds on the line by one way: MODEL CALL MIX CHIPS ROUNDS. */
static int put_only(char **words)
{
    size_t resets;
    int mix = strcmp(words[2], mixes[OPENED]) == 0 ? OPENED : WHOLE;
    set_up((unsigned)atoi(words[3]));
    for (int i = 0; i < MODELS; i++)
        if (strcmp(words[0], models[i].name) == 0)
            put_rounds(&models[i], (size_t)atoi(words[1]), mix, (size_t)atoi(words[4]));
    printf("%zu\n", events_of(mix, &resets));
    return refused;
}

int main(int count, char **words)
{
    static const unsigned lines[3] = {1, 4, 16};
    if (count == 6)
        return put_only(words + 1);
    for (int i = 0; i < 3; i++)
        for (int way = 0; way < MODELS * CALLS; way++)
            if (has_way(way / CALLS, calls[way % CALLS], WHOLE) &&
                !agrees(&models[way / CALLS], calls[way % CALLS], lines[i])) {
                printf("%s and the plain model differ on a line of %u chips, call %zu\n", models[way / CALLS].name,
                       lines[i], calls[way % CALLS]);
                return 1;
            }
    for (int i = 0; i < 3; i++)
        time_line(lines[i]);
    return 0;
}
