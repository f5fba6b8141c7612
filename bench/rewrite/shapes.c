#include "shapes.h"

#include <string.h>

#define BYTES(...) {sizeof((const uint8_t[]){__VA_ARGS__}), {__VA_ARGS__}}
#define NOTHING {0, {0}}
/* Ensure trust 500 to 999. */
#define BOUND 0x60, 0x5D, 0xC7, 0xCF
#define SET 0x00
#define TRUE 0x70
#define PATTERN 0x10, 0, 1, 0, 0, 20, 0x10, 0, 2
#define FIVE_PATTERNS PATTERN, PATTERN, PATTERN, PATTERN, PATTERN
#define SIXTEEN_PROJECT_TRUSTS \
    0x50, 0x51, 0x52, 0x53, 0x54, 0x55, 0x56, 0x57, 0x58, 0x59, 0x5A, 0x5B, 0x5C, 0x5D, 0x5E, 0x5F

const struct shape shapes[] = {
    {"joins to the left", BYTES(BOUND), BYTES(0x10), BYTES(SET), BYTES(SET), NOTHING},
    {"joins to the right", BYTES(BOUND), BYTES(0x10, SET), BYTES(SET), NOTHING, NOTHING},
    {"joins to the right, no bound", NOTHING, BYTES(0x10, SET), BYTES(SET), NOTHING, NOTHING},
    {"left joins to the left", BYTES(BOUND), BYTES(0x20, TRUE), BYTES(SET), BYTES(SET), NOTHING},
    {"left joins to the right", BYTES(BOUND), BYTES(0x20, TRUE, SET), BYTES(SET), NOTHING, NOTHING},
    {"unions to the left", BYTES(BOUND), BYTES(0x30), BYTES(SET), BYTES(SET), NOTHING},
    {"unions to the right", BYTES(BOUND), BYTES(0x30, SET), BYTES(SET), NOTHING, NOTHING},
    {"filters", BYTES(BOUND), BYTES(0x40, TRUE), BYTES(SET), NOTHING, NOTHING},
    {"ensure trusts", NOTHING, BYTES(BOUND), BYTES(SET), NOTHING, NOTHING},
    {"16 project trusts, then unions", BYTES(SIXTEEN_PROJECT_TRUSTS), BYTES(0x30, SET), BYTES(SET), NOTHING, NOTHING},
    {"16 project trusts, then joins", BYTES(BOUND, SIXTEEN_PROJECT_TRUSTS), BYTES(0x10), BYTES(SET), BYTES(SET), NOTHING},
    {"unions of joins", BYTES(BOUND), BYTES(0x30), BYTES(0x10, SET, SET), BYTES(0x10, SET, SET), NOTHING},
    {"sets of 15 patterns", BYTES(BOUND), BYTES(0x30, 0x0F, FIVE_PATTERNS, FIVE_PATTERNS, FIVE_PATTERNS), BYTES(SET), NOTHING,
     NOTHING},
    {"a condition of nots", BYTES(BOUND, 0x40), BYTES(0x40), BYTES(TRUE), NOTHING, BYTES(SET)},
    {"a condition of ands", BYTES(BOUND, 0x40), BYTES(0x50), BYTES(TRUE), BYTES(0x21, 0, 0, 20), BYTES(SET)},
};
const size_t shape_count = sizeof shapes / sizeof shapes[0];

static uint8_t *put(uint8_t *to, struct piece piece, size_t times)
{
    for (size_t i = 0; i < times; i++) {
        memcpy(to, piece.bytes, piece.length);
        to += piece.length;
    }
    return to;
}

void shape_query(const struct shape *shape, uint8_t *query, size_t length)
{
    size_t room = length - shape->front.length - shape->end.length - shape->last.length;
    size_t each = shape->link.length + shape->tail.length, links = room / each, left = room % each;
    /* A single byte cannot be a filter: it takes the place of a link. */
    if (left == 1) {
        links--;
        left += each;
    }
    if (left > 0) {
        memset(query, 0x40, left); /* a filter of nots */
        query[left - 1] = TRUE;
    }
    uint8_t *to = put(query + left, shape->front, 1);
    to = put(to, shape->link, links);
    to = put(to, shape->end, 1);
    to = put(to, shape->tail, links);
    put(to, shape->last, 1);
}
