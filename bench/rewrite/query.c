#include "query.h"

#include <stdbool.h>

/* A pass over a query. Where a reader answers false, `at` is the place of the fault. */
struct reading {
    const uint8_t *bytes;
    size_t length, at;
    /* Variables as bits: of patterns, of a project trust, of two project trusts or more. */
    uint32_t in_patterns, projected, projected_twice;
    /* The first project trust of each variable. */
    size_t first[VARIABLES];
};

static bool has(const struct reading *r, size_t count)
{
    return r->length - r->at >= count;
}

static bool read_slot(struct reading *r, const uint8_t *slot)
{
    uint32_t value = (slot[0] & 15u) << 16 | (uint32_t)slot[1] << 8 | slot[2];
    if (slot[0] >> 4 == 0) return value != 0;
    if (slot[0] >> 4 != 1 || value >= VARIABLES) return false;
    r->in_patterns |= 1u << value;
    return true;
}

static bool read_pattern(struct reading *r)
{
    if (!has(r, PATTERN_BYTES)) return false;
    const uint8_t *pattern = r->bytes + r->at;
    if (!read_slot(r, pattern) || !read_slot(r, pattern + 3) || !read_slot(r, pattern + 6)) return false;
    r->at += PATTERN_BYTES;
    return true;
}

/* Passes `count` bytes if they are there and `sound`. */
static bool pass(struct reading *r, size_t count, bool sound)
{
    if (sound) r->at += count;
    return sound;
}

static bool read_condition(struct reading *r)
{
    if (!has(r, 1)) return false;
    const uint8_t *c = r->bytes + r->at;
    unsigned kind = c[0] >> 4;
    switch (kind) {
    case 0: return pass(r, 1, true);
    case 1:
    case 3: return pass(r, 2, has(r, 2) && c[1] < VARIABLES);
    case 2: return pass(r, 4, has(r, 4) && c[1] >> 4 == 0 && (c[1] | c[2] | c[3]) != 0);
    default:
        if (!pass(r, 1, kind <= 7 && (c[0] & 15) == 0)) return false;
        if (kind == 7) return true;
        return read_condition(r) && (kind == 4 || read_condition(r));
    }
}

static void note_projected(struct reading *r, unsigned variable)
{
    uint32_t bit = 1u << variable;
    if (r->projected & bit) {
        r->projected_twice |= bit;
    } else {
        r->projected |= bit;
        r->first[variable] = r->at;
    }
}

static bool bounds_sound(const struct reading *r, const uint8_t *ensure)
{
    if (!has(r, 4)) return false;
    unsigned low = (unsigned)ensure[1] << 4 | ensure[2] >> 4, high = (ensure[2] & 15u) << 8 | ensure[3];
    return low <= MOST_BOUND && high <= MOST_BOUND;
}

static bool read_node(struct reading *r)
{
    if (!has(r, 1)) return false;
    const uint8_t *head = r->bytes + r->at;
    unsigned kind = head[0] >> 4, n = head[0] & 15u;
    if (n != 0 && kind != 0 && kind != 5) return false;
    switch (kind) {
    case 0:
        r->at++;
        while (n > 0 && read_pattern(r)) n--;
        return n == 0;
    case 1:
    case 3: r->at++; return read_node(r) && read_node(r);
    case 2: r->at++; return read_condition(r) && read_node(r) && read_node(r);
    case 4: r->at++; return read_condition(r) && read_node(r);
    case 5:
        note_projected(r, n);
        r->at++;
        return read_node(r);
    case 6: return pass(r, 4, bounds_sound(r, head)) && read_node(r);
    default: return false;
    }
}

struct randwyler_refusal query_check(const uint8_t *query, size_t length, size_t limit)
{
    if (length > limit) return (struct randwyler_refusal){5, 0};
    struct reading r = {.bytes = query, .length = length};
    if (!read_node(&r) || r.at < length) return (struct randwyler_refusal){6, r.at};
    uint32_t clashing = r.projected & (r.projected_twice | r.in_patterns);
    if (clashing == 0) return (struct randwyler_refusal){0, 0};
    size_t place = length;
    for (unsigned variable = 0; variable < VARIABLES; variable++) {
        if (clashing >> variable & 1 && r.first[variable] < place) place = r.first[variable];
    }
    return (struct randwyler_refusal){7, place};
}

size_t condition_length(const uint8_t *condition)
{
    static const uint8_t bytes[8] = {1, 2, 4, 2, 1, 1, 1, 1}, operands[8] = {0, 0, 0, 0, 1, 2, 2, 0};
    const uint8_t *end = condition;
    for (size_t missing = 1; missing > 0; missing--) {
        unsigned kind = *end >> 4;
        end += bytes[kind];
        missing += operands[kind];
    }
    return (size_t)(end - condition);
}
