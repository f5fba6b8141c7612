#include "record.h"

void record_write(uint8_t *to, struct record r)
{
    uint64_t key = (uint64_t)r.subject << 2 * TERM_BITS | (uint64_t)r.predicate << TERM_BITS | r.object;
    uint32_t trust = r.trust == UNKNOWN ? 0 : 0x800 | r.trust;
    for (int i = 0; i < 7; i++) to[i] = (uint8_t)(key >> (52 - 8 * i));
    to[7] = (uint8_t)((key & 15) << 4 | trust >> 8);
    to[8] = (uint8_t)trust;
}
