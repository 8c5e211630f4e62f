/*
 * A soak: slots through tk_slots on one copy of a line and through tk_event on another, which must hold equal bytes all
 * along.
 *
 *   soak SLOTS SEED
 * Lines and sessions come by chance, runs are cut anywhere. Each line has a seed of its own, the first SEED, the next one
 * more. The exit status is 1 at the first difference, with what repeats it.
 */
#include <inttypes.h>
#include <stdio.h>
#include <stdlib.h>
#include <string.h>
#include <time.h>
#include <unistd.h>

#include "random.h"
#include "sessions.h"

/* The slots of a line, after which another is set up. */
#define LINE_SLOTS 20000

uint64_t random_state;

/* The copy that takes runs, the copy that takes events, and the table before the last call. */
static struct line by_runs, by_events;
static uint8_t table_before[sizeof by_runs.table];

/* The run that is being filled, and at how many slots it is cut. */
static uint8_t bits[(TK_MOST_SLOTS + 7) / 8];
static size_t filled, cut;

/* What has been put on all lines, and on this one. */
static uint64_t slots, runs, events, lines, line_slots, wanted, line_seed;

/* ---- a difference */

static void print_bytes(const char *what, const uint8_t *bytes, size_t size)
{
    printf("%s:", what);
    for (size_t i = 0; i < size; i++)
        printf("%s%02X", i % TK_RECORD_SIZE == 0 ? "\n  " : " ", bytes[i]);
    printf("\n");
}

/* Ends the program: what differs, and how it comes again. */
static void differs(const char *what, const char *call)
{
    /* one slot more than were put, so that the last session goes on as it did */
    uint64_t enough = line_slots + filled + (slots + filled < wanted);
    printf("DIFFERENT: %s, after %s\n", what, call);
    printf("slots on this line before the call: %" PRIu64 "; slots of the run: %zu\n", line_slots, filled);
    print_bytes("host's bits of the run", bits, (filled + 7) / 8);
    print_bytes("table before", table_before, by_runs.table_size);
    print_bytes("table by tk_slots", by_runs.table, by_runs.table_size);
    print_bytes("table by tk_event", by_events.table, by_events.table_size);
    printf("to repeat it on a line of its own, with --plain or LIBRARY as now: tools/soak/run %" PRIu64 " %" PRIu64 "\n", enough,
           line_seed);
    exit(1);
}

/* Ends the program where bytes are not equal. */
static void compare(const char *what, const char *call, const uint8_t *runs_bytes, const uint8_t *events_bytes,
                    size_t size)
{
    char place[100];
    if (memcmp(runs_bytes, events_bytes, size) == 0)
        return;
    size_t at = 0;
    while (runs_bytes[at] == events_bytes[at])
        at++;
    snprintf(place, sizeof place, "byte %zu of the %s, %02X by tk_slots and %02X by tk_event", at, what, runs_bytes[at],
             events_bytes[at]);
    differs(place, call);
}

static void compare_lines(const char *call)
{
    compare("table", call, by_runs.table, by_events.table, by_runs.table_size);
    compare("images", call, by_runs.images, by_events.images, by_runs.images_size);
    compare("scratchpads", call, by_runs.pads, by_events.pads, by_runs.pads_size);
}

/* ---- the two copies */

static int32_t one_event(struct line *line, uint32_t event, uint32_t chip, uint32_t levels)
{
    return tk_event(line->table, line->table_size, event, chip, levels, line->images, line->images_size, line->pads,
                    line->pads_size);
}

/* At how many slots the next run is cut: most runs are short, many are whole bytes. */
static size_t any_cut(void)
{
    switch (below(16)) {
    case 0:
        return TK_MOST_SLOTS;
    case 1:
    case 2:
        return 8 * (1 + below(64));
    case 3:
    case 4:
        return below(600);
    case 5:
    case 6:
    case 7:
    case 8:
        return 8;
    default:
        return below(40);
    }
}

/* Puts the run that was filled on both copies. The host's unused bits are anything, the answers' must be 0. */
static void put_run(void)
{
    static uint8_t answers[sizeof bits], expected[sizeof bits];
    size_t size = (filled + 7) / 8;
    if (filled % 8 != 0)
        bits[size - 1] |= (uint8_t)(below(256) << filled % 8);
    memcpy(table_before, by_runs.table, sizeof table_before);
    memset(answers, (int)below(256), size);
    memset(expected, 0, size);
    int32_t answer = tk_slots(by_runs.table, by_runs.table_size, bits, size, answers, size, filled, by_runs.images,
                              by_runs.images_size, by_runs.pads, by_runs.pads_size);
    if (answer != (int32_t)filled)
        differs("the answer is not the number of slots", "tk_slots");
    for (size_t i = 0; i < filled; i++) {
        int32_t bit = one_event(&by_events, bits[i / 8] >> i % 8 & 1, 0, 0);
        if (bit < 0)
            differs("a slot is refused", "tk_event");
        expected[i / 8] |= (uint8_t)(bit << i % 8);
    }
    compare("answers", "a run", answers, expected, size);
    compare_lines("a run");
    runs++;
    slots += filled;
    line_slots += filled;
    memset(bits, 0, size);
    filled = 0;
    cut = any_cut();
}

void put_slot(unsigned bit)
{
    if (slots + filled == wanted)
        return;
    while (filled >= cut)
        put_run();
    bits[filled / 8] |= (uint8_t)(bit << filled % 8);
    filled++;
}

void put_event(uint32_t event, uint32_t chip, uint32_t levels)
{
    put_run();
    memcpy(table_before, by_runs.table, sizeof table_before);
    if (one_event(&by_runs, event, chip, levels) != one_event(&by_events, event, chip, levels))
        differs("the answers to one event", "an event");
    compare_lines("an event");
    events++;
}

/* ---- the soak */

/* Says how far it is, each second, where somebody looks on. */
static void show_progress(time_t start)
{
    static time_t shown;
    time_t now = time(NULL);
    if (!isatty(2) || now == shown)
        return;
    shown = now;
    fprintf(stderr, "\r%" PRIu64 " of %" PRIu64 " slots, %ld s ", slots, wanted, (long)(now - start));
}

/* One line, until it has had its slots. */
static void soak_line(time_t start)
{
    random_state = line_seed;
    any_line(&by_runs);
    by_events = by_runs;
    line_slots = 0;
    cut = any_cut();
    lines++;
    while (line_slots < LINE_SLOTS && slots + filled < wanted) {
        any_session(&by_runs);
        show_progress(start);
    }
    put_run();
}

int main(int count, char **words)
{
    if (count != 3)
        return 2;
    wanted = strtoull(words[1], NULL, 10);
    line_seed = strtoull(words[2], NULL, 10);
    time_t start = time(NULL);
    printf("%" PRIu64 " slots, seed %" PRIu64 "\n", wanted, line_seed);
    fflush(stdout);
    for (; slots < wanted; line_seed++)
        soak_line(start);
    if (isatty(2))
        fprintf(stderr, "\n");
    printf("equal bytes all along: %" PRIu64 " slots in %" PRIu64 " runs, %" PRIu64 " other events, %" PRIu64
           " lines, %ld s\n",
           slots, runs, events, lines, (long)(time(NULL) - start));
    return 0;
}
