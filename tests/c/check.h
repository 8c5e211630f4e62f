/* What the unit tests share: the tally, and a host with a line of few chips. */
#ifndef CHECK_H
#define CHECK_H

#include <string.h>

#include "host.h"

/* Counts a check; says which one failed. */
void check(const char *name, bool good);

/* Sets up a line of chips of these kinds, a digit for each; codes are 1, 2 and so on. */
void set_up(struct host *host, const char *kinds);

/* The card record of a chip. */
void card_record(uint8_t record[12], unsigned kind, uint8_t first);

/* Reset, Skip ROM and bytes. */
void skip_write(struct host *host, const uint8_t *bytes, size_t size);

/* skip_write of the bytes that follow. */
#define SKIP(host, ...) skip_write(host, (const uint8_t[]){__VA_ARGS__}, sizeof((const uint8_t[]){__VA_ARGS__}))

/* The tests, one function for each file. */
void test_sizes(void);
void test_cards(void);
void test_refusals(void);
void test_cases(void);
void test_records(void);
void test_slots(void);

#endif
