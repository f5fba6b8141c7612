#include "tables.h"

#include <stdlib.h>

#include "../evaluate/store.h"
#include "../random.h"
#include "../record.h"

enum { TERMS = 1 << TERM_BITS, LOW = 65536, FRONTS = TERMS / LOW }; /* a term is its front, times LOW, and its 16 low bits */

/* The number moved to a place among the terms that looks like chance. Each step can be undone, so no term comes twice; 0 stays 0. */
static uint32_t scattered(uint32_t n)
{
    n = n * 0x9E375 % TERMS;
    n ^= n >> 10;
    n = n * 0x7A5B5 % TERMS;
    return n ^ n >> 9;
}

/* Different terms for different numbers, 16 to a bucket: bucket_of of crates/totals, solved for the low bits. */
static uint32_t in_bucket(uint32_t n)
{
    uint32_t bucket = 1 + n / FRONTS, front = n % FRONTS;
    return front * LOW + (bucket - front * 40503) % LOW;
}

/* The sample of record i, which has number k in the random order. */
static uint32_t sample_of(enum table kind, uint32_t i, uint32_t k)
{
    switch (kind) {
    case SHUFFLED: return 1 + k;
    case STEPS: return 7 + 16 * k;
    case RESIDUES: return k % FRONTS * LOW + 1 + k / FRONTS;
    case BUCKETS: return in_bucket(k);
    case BUCKETS_OF_8: return in_bucket(k / 8);
    case SCATTERED: return scattered(1 + k);
    case EQUAL: return 1;
    default: return 1 + i;
    }
}

/* The numbers below `count` in a random order, to be freed. */
static uint32_t *random_order(uint32_t count, uint64_t *state)
{
    uint32_t *order = malloc(count * sizeof *order);
    if (order == NULL) abort();
    for (uint32_t i = 0; i < count; i++) {
        uint32_t j = random_below(state, i + 1);
        order[i] = i;
        order[i] = order[j];
        order[j] = i;
    }
    return order;
}

void table_fill(enum table kind, uint8_t *table, size_t records, uint64_t seed)
{
    if (kind == STORE) {
        store_fill(table, records, seed);
        return;
    }
    uint32_t *order = random_order((uint32_t)records, &seed);
    for (uint32_t i = 0; i < records; i++) {
        struct record r = {1 + i, SAMPLE, sample_of(kind, i, order[i]), random_trust(&seed)};
        record_write(table + RECORD_BYTES * (size_t)i, r);
    }
    free(order);
}
