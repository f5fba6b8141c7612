/* Random numbers for tables, always the same for the same seed. */
#ifndef RANDOM_H
#define RANDOM_H

#include "record.h"

/* The next random number below `limit` (splitmix64). */
static inline uint32_t random_below(uint64_t *state, uint32_t limit)
{
    uint64_t z = *state += 0x9E3779B97F4A7C15;
    z = (z ^ z >> 30) * 0xBF58476D1CE4E5B9;
    z = (z ^ z >> 27) * 0x94D049BB133111EB;
    return (uint32_t)((z ^ z >> 31) % limit);
}

/* The next trust, as a row has it: an eighth is unknown, the others are spread evenly over all known ones. */
static inline uint32_t random_trust(uint64_t *state)
{
    return random_below(state, 8) == 0 ? UNKNOWN : random_below(state, MOST_TRUST + 1);
}

#endif
