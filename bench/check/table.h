/* The refusals 1 to 4 of a table, as a C programmer would write them down: what randwyler_check is measured against. */
#ifndef TABLE_H
#define TABLE_H

#include "randwyler.h"

struct randwyler_refusal table_check(const uint8_t *table, size_t length);

#endif
