/* The evaluation of a query, as a C programmer would write it down: what randwyler_evaluate is measured against. It has the
 * same refusals and algorithms: a pattern set scans the records for each pattern in turn, from the subject that a variable has and as
 * far as the one that the pattern asks for, unless a pattern matches nothing; a join with many pairs chains its right rows. */
#ifndef PLAIN_H
#define PLAIN_H

#include "randwyler.h"

enum { ROW_WORDS = 17, TRUST_WORD = 16 };

struct randwyler_evaluated plain_evaluate(const uint8_t *table, size_t table_len, const uint8_t *query, size_t query_len,
                                          bool mean, uint32_t *space, size_t space_len, struct randwyler_tally tally);

#endif
