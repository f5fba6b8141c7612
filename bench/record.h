/* The records of a table, as docs/FORMATS.md lays them out. */
#ifndef RECORD_H
#define RECORD_H

#include <stdint.h>

enum { MOST_RECORDS = 65535, RECORD_BYTES = 9, TERM_BITS = 20, MOST_TRUST = 2000, UNKNOWN = MOST_TRUST + 1 };

/* Subject, predicate and object, each of TERM_BITS bits; and the trust as a row has it: plus 1000, or UNKNOWN. */
struct record {
    uint32_t subject, predicate, object, trust;
};

void record_write(uint8_t *to, struct record r);

/* The 60 bits of subject, predicate and object. */
static inline uint64_t record_key(const uint8_t *r)
{
    uint64_t front = (uint64_t)r[0] << 56 | (uint64_t)r[1] << 48 | (uint64_t)r[2] << 40 | (uint64_t)r[3] << 32 |
                     (uint64_t)r[4] << 24 | (uint64_t)r[5] << 16 | (uint64_t)r[6] << 8 | (uint64_t)r[7];
    return front >> 4;
}

static inline uint32_t record_trust(const uint8_t *r)
{
    return r[7] & 8u ? (r[7] & 7u) << 8 | r[8] : UNKNOWN;
}

#endif
