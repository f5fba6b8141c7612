#include "store.h"

#include "../random.h"
#include "../record.h"

enum {
    GRADES = 8,
    CREWS = 5,
    FIRST_CREW = 51,
    FIRST_PAN = 1000,
    FIRST_SAMPLE = 100000,
    MOST_SAMPLES = 10, /* of a strike; from 0 on all are equally frequent, so that a strike has 8 records on average */
    RECORDS_A_PAN = 160 /* pans grow with the table: each has 20 strikes on average */
};

struct store {
    uint8_t *next, *end;
    uint64_t state;
};

/* Adds a record while there is room. */
static void add(struct store *s, uint32_t subject, uint32_t predicate, uint32_t object)
{
    uint32_t trust = random_trust(&s->state);
    if (s->next == s->end) return;
    record_write(s->next, (struct record){subject, predicate, object, trust});
    s->next += RECORD_BYTES;
}

void store_fill(uint8_t *table, size_t records, uint64_t seed)
{
    store_fill_limited(table, records, MOST_RECORDS, seed);
}

void store_fill_limited(uint8_t *table, size_t records, uint32_t samples, uint64_t seed)
{
    struct store s = {table, table + RECORD_BYTES * records, seed};
    uint32_t sample = FIRST_SAMPLE, end = FIRST_SAMPLE + samples, pans = 1 + (uint32_t)(records / RECORDS_A_PAN);
    for (uint32_t strike = 1; s.next < s.end; strike++) {
        uint32_t n = random_below(&s.state, MOST_SAMPLES + 1);
        for (; n > 0 && sample < end; n--) add(&s, strike, SAMPLE, sample++);
        add(&s, strike, GRADE, ONE_GRADE + random_below(&s.state, GRADES));
        add(&s, strike, PAN, FIRST_PAN + random_below(&s.state, pans));
        add(&s, strike, CREW, FIRST_CREW + random_below(&s.state, CREWS));
    }
}

uint32_t store_strike(const uint8_t *table, size_t records, enum strike which)
{
    size_t record = which == FIRST_STRIKE ? 0 : which == MIDDLE_STRIKE ? records / 2 : records - 1;
    return (uint32_t)(record_key(table + RECORD_BYTES * record) >> 2 * TERM_BITS);
}
