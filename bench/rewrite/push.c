#include "push.h"

#include <stdbool.h>
#include <string.h>

#include "query.h"

enum { REWRITE_LIMIT = 1024, MOST_RESULT = 5 * REWRITE_LIMIT };

/* Bounds are plus 1000, as in the bytes. */
struct bound {
    bool some;
    unsigned low, high;
};

/* Where the next node of a checked query starts, and where its push goes. */
struct push {
    const uint8_t *from;
    uint8_t *to;
};

static void copy(struct push *p, size_t count)
{
    memcpy(p->to, p->from, count);
    p->from += count;
    p->to += count;
}

static void wrap(struct push *p, struct bound b)
{
    *p->to++ = 0x60;
    *p->to++ = (uint8_t)(b.low >> 4);
    *p->to++ = (uint8_t)(b.low << 4 | b.high >> 8);
    *p->to++ = (uint8_t)b.high;
}

/* Takes the bounds of an ensure trust away and answers what its operand gets. */
static struct bound meet(struct push *p, struct bound b)
{
    const uint8_t *ensure = p->from;
    unsigned low = (unsigned)ensure[1] << 4 | ensure[2] >> 4, high = (ensure[2] & 15u) << 8 | ensure[3];
    p->from += 4;
    if (!b.some) return (struct bound){true, low, high};
    return (struct bound){true, b.low > low ? b.low : low, b.high < high ? b.high : high};
}

static void push_node(struct push *p, struct bound b)
{
    const struct bound none = {false, 0, 0}, floor = {b.some, b.low, MOST_BOUND};
    switch (*p->from >> 4) {
    case 0:
        if (b.some) wrap(p, b);
        copy(p, 1 + PATTERN_BYTES * (size_t)(*p->from & 15));
        return;
    case 1:
        if (b.some && b.high < MOST_BOUND) wrap(p, b);
        copy(p, 1);
        push_node(p, floor);
        push_node(p, floor);
        return;
    case 2:
        if (b.some) wrap(p, b);
        copy(p, 1);
        copy(p, condition_length(p->from));
        push_node(p, floor);
        push_node(p, none);
        return;
    case 3:
        copy(p, 1);
        push_node(p, b);
        push_node(p, b);
        return;
    case 4:
        copy(p, 1);
        copy(p, condition_length(p->from));
        push_node(p, b);
        return;
    case 5:
        copy(p, 1);
        push_node(p, b);
        return;
    default: push_node(p, meet(p, b));
    }
}

struct randwyler_rewritten push_rewrite(const uint8_t *query, size_t query_len, uint8_t *output, size_t output_len)
{
    struct randwyler_refusal refusal = query_check(query, query_len, REWRITE_LIMIT);
    if (refusal.number != 0) return (struct randwyler_rewritten){refusal.number, refusal.place, 0};
    uint8_t result[MOST_RESULT];
    struct push p = {query, result};
    push_node(&p, (struct bound){false, 0, 0});
    size_t length = (size_t)(p.to - result);
    if (length > output_len) return (struct randwyler_rewritten){9, length, 0};
    memcpy(output, result, length);
    return (struct randwyler_rewritten){0, 0, length};
}
