/* The rewriting of a query, as a C programmer would write it down: what randwyler_rewrite is measured against. */
#ifndef PUSH_H
#define PUSH_H

#include "randwyler.h"

struct randwyler_rewritten push_rewrite(const uint8_t *query, size_t query_len, uint8_t *output, size_t output_len);

#endif
