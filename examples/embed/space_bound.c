/* Goes over the nodes of a query from the last one to the first. The operands of a node stand behind it, so that their bounds are known
 * when it is reached, and nothing here calls itself. The kinds and lengths are those of docs/FORMATS.md.
 */
#include "space_bound.h"

#include "randwyler.h"

enum { PATTERN_SET = 0, JOIN = 1, LEFT_JOIN = 2, UNION = 3, FILTER = 4, ENSURE_TRUST = 6 };
enum { IS_TERM = 2, SAME = 1, LESS = 3, NOT = 4, AND = 5, OR = 6 };
enum { PATTERN_BYTES = 9, BOUND_BYTES = 3 };

/* No query has more pattern sets: each but one needs a node of two operands, and both take a byte at least. */
enum { MOST_PARTS = RANDWYLER_MOST_QUERY_BYTES / 2 };

/* A node whose bound is known, until the node that it is an operand of is reached. */
struct part {
    uint64_t space;
    uint64_t ceiling;
};

/* SPACE_UNKNOWN if one of them is. */
static uint64_t sum(uint64_t a, uint64_t b)
{
    return a > SPACE_UNKNOWN - b ? SPACE_UNKNOWN : a + b;
}

static uint64_t greater(uint64_t a, uint64_t b)
{
    return a > b ? a : b;
}

/* A ceiling, as the formula for a node gives it by those of its operands: SPACE_UNKNOWN where it is cut. */
static uint64_t known_below_cut(uint64_t ceiling)
{
    return ceiling < RANDWYLER_MOST_CEILING ? ceiling : SPACE_UNKNOWN;
}

/* Of two ceilings. */
static uint64_t product(uint64_t a, uint64_t b)
{
    if (a == 0 || b == 0) return 0;
    return a == SPACE_UNKNOWN || b == SPACE_UNKNOWN ? SPACE_UNKNOWN : known_below_cut(a * b);
}

static uint64_t node_ceiling(int kind, uint64_t left, uint64_t right)
{
    if (kind == UNION) return known_below_cut(sum(left, right));
    return product(left, kind == LEFT_JOIN ? greater(right, 1) : right);
}

/* The first byte behind the condition at a byte. */
static size_t behind_condition(const uint8_t *query, size_t place)
{
    for (size_t missing = 1; missing > 0; missing--) {
        switch (query[place++] >> 4) {
        case SAME:
        case LESS: place += 1; break;
        case IS_TERM: place += 3; break;
        case NOT: missing += 1; break;
        case AND:
        case OR: missing += 2; break;
        default: break;
        }
    }
    return place;
}

/* The first byte behind the head of the node at a byte, and so the next node. */
static size_t behind_head(const uint8_t *query, size_t place)
{
    switch (query[place] >> 4) {
    case PATTERN_SET: return place + 1 + PATTERN_BYTES * (query[place] & 15u);
    case LEFT_JOIN:
    case FILTER: return behind_condition(query, place + 1);
    case ENSURE_TRUST: return place + 1 + BOUND_BYTES;
    default: return place + 1;
    }
}

/* Of a pattern set, as a query of its own. */
static uint64_t set_ceiling(const uint8_t *table, size_t table_len, const uint8_t *set, size_t set_len)
{
    struct randwyler_ceiling answer = randwyler_ceiling_of(table, table_len, set, set_len);
    return answer.number == RANDWYLER_ANSWERED ? known_below_cut(answer.ceiling) : SPACE_UNKNOWN;
}

uint64_t space_bound(const uint8_t *table, size_t table_len, const uint8_t *query, size_t query_len)
{
    if (randwyler_check(table, table_len, query, query_len).number != RANDWYLER_ANSWERED) return SPACE_UNKNOWN;

    uint16_t nodes[RANDWYLER_MOST_QUERY_BYTES];
    size_t count = 0;
    for (size_t place = 0; place < query_len; place = behind_head(query, place)) nodes[count++] = (uint16_t)place;

    struct part parts[MOST_PARTS]; /* the last one stands first in the query */
    size_t known = 0;
    while (count-- > 0) {
        size_t place = nodes[count];
        int kind = query[place] >> 4;
        if (kind == PATTERN_SET) {
            uint64_t ceiling = set_ceiling(table, table_len, query + place, behind_head(query, place) - place);
            parts[known++] = (struct part){ceiling, ceiling};
        } else if (kind == JOIN || kind == LEFT_JOIN || kind == UNION) {
            struct part left = parts[--known], *right = &parts[known - 1];
            uint64_t ceiling = node_ceiling(kind, left.ceiling, right->ceiling);
            uint64_t space = greater(left.space, sum(left.ceiling, right->space));
            if (kind != UNION) space = greater(space, sum(sum(left.ceiling, right->ceiling), ceiling));
            *right = (struct part){space, ceiling};
        }
        /* A node of one operand has the operand's bound, and no more rows than it. */
    }
    return parts[0].space;
}
