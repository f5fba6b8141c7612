#include "group.h"

#include <string.h>

#include "../evaluate/plain.h"
#include "../record.h"

enum { SLOT_BITS = 17, SLOTS = 1 << SLOT_BITS }; /* so that half of them stay free */

struct group {
    uint32_t cell, count, trust;
};
_Static_assert(sizeof(struct group) == RANDWYLER_GROUP_WORDS * sizeof(uint32_t), "a group is an entry");

/* Groups in order of first appearance. A slot has the number of a group plus 1, or 0; a group's is the first that was free from the
 * slot of its cell on. */
struct groups {
    size_t count;
    uint16_t slots[SLOTS];
    struct group group[RANDWYLER_MOST_ROWS];
};

/* The slot at which a cell's group is looked for first. */
static size_t slot_of(uint32_t cell)
{
    return cell * 2654435769u >> (32 - SLOT_BITS);
}

static void add_row(struct groups *g, uint32_t cell, uint32_t trust)
{
    size_t s = slot_of(cell);
    while (g->slots[s] != 0 && g->group[g->slots[s] - 1].cell != cell) s = (s + 1) % SLOTS;
    if (g->slots[s] == 0) {
        g->group[g->count++] = (struct group){cell, 1, trust};
        g->slots[s] = (uint16_t)g->count;
        return;
    }
    struct group *group = &g->group[g->slots[s] - 1];
    group->count++;
    if (trust == UNKNOWN || (trust < group->trust && group->trust != UNKNOWN)) group->trust = trust;
}

size_t group_rows(const uint32_t *rows, size_t count, unsigned variable, uint32_t *output, size_t room)
{
    struct groups g;
    g.count = 0;
    memset(g.slots, 0, sizeof g.slots);
    for (size_t i = 0; i < count; i++) add_row(&g, rows[ROW_WORDS * i + variable], rows[ROW_WORDS * i + TRUST_WORD]);
    size_t words = RANDWYLER_GROUP_WORDS * g.count;
    if (words <= room) memcpy(output, g.group, words * sizeof *output);
    return words;
}
