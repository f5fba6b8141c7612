/* The refusals 5 to 7 of a query, as a C programmer would write them down. */
#ifndef QUERY_H
#define QUERY_H

#include "randwyler.h"

enum { PATTERN_BYTES = 9, MOST_BOUND = 2000, VARIABLES = 16 };

struct randwyler_refusal query_check(const uint8_t *query, size_t length, size_t limit);

/* How many bytes a condition of a checked query has. */
size_t condition_length(const uint8_t *condition);

#endif
