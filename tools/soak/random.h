/* Numbers by chance, the same for the same seed on every machine. */
#ifndef SOAK_RANDOM_H
#define SOAK_RANDOM_H

#include <stdint.h>

/* Where the numbers stand; a seed to begin with. */
extern uint64_t random_state;

/* The next number: SplitMix64. */
static inline uint64_t random_number(void)
{
    uint64_t mixed = random_state += 0x9E3779B97F4A7C15;
    mixed = (mixed ^ mixed >> 30) * 0xBF58476D1CE4E5B9;
    mixed = (mixed ^ mixed >> 27) * 0x94D049BB133111EB;
    return mixed ^ mixed >> 31;
}

/* A number below a limit. */
static inline unsigned below(unsigned limit) { return (unsigned)(random_number() >> 32) % limit; }

/* Whether it happens, once in so many times. */
static inline int one_in(unsigned times) { return below(times) == 0; }

#endif
