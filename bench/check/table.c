#include "table.h"

#include "../record.h"

static struct randwyler_refusal refused(uint32_t number, size_t place)
{
    return (struct randwyler_refusal){number, place};
}

struct randwyler_refusal table_check(const uint8_t *table, size_t length)
{
    if (length % RECORD_BYTES != 0) return refused(1, 0);
    size_t count = length / RECORD_BYTES;
    if (count > MOST_RECORDS) return refused(2, 0);
    const uint64_t term = (1u << TERM_BITS) - 1;
    uint64_t before = 0; /* every sound record is above it */
    for (size_t i = 0; i < count; i++) {
        const uint8_t *r = table + RECORD_BYTES * i;
        uint64_t key = record_key(r);
        uint32_t trust = (r[7] & 7u) << 8 | r[8];
        if ((key >> 2 * TERM_BITS) == 0 || (key >> TERM_BITS & term) == 0 || (key & term) == 0) return refused(3, i);
        if (trust > MOST_TRUST || ((r[7] & 8u) == 0 && trust != 0)) return refused(3, i);
        if (key <= before) return refused(4, i);
        before = key;
    }
    return refused(0, 0);
}
