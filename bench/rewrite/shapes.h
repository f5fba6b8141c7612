/* Queries of a length, each of one shape. */
#ifndef SHAPES_H
#define SHAPES_H

#include <stddef.h>
#include <stdint.h>

enum { MOST_PIECE = 140 };

struct piece {
    size_t length;
    uint8_t bytes[MOST_PIECE];
};

/* `front`, then as often as it fits `link`, with a `tail` for each link behind `end`, then `last`. Bytes that are left over
 * become a filter before all. */
struct shape {
    const char *name;
    struct piece front, link, end, tail, last;
};

extern const struct shape shapes[];
extern const size_t shape_count;

/* Writes the query of exactly `length` bytes, which is at least 256. */
void shape_query(const struct shape *shape, uint8_t *query, size_t length);

#endif
