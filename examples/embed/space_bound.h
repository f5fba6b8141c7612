/* A bound on the row space of an evaluation, by ceilings ("Choose sizes" in docs/INTEGRATION.md). Tested, not proved. */
#ifndef SPACE_BOUND_H
#define SPACE_BOUND_H

#include <stddef.h>
#include <stdint.h>

/* No bound is known: a ceiling is RANDWYLER_MOST_CEILING and so may stand for any greater number, or the check refuses the inputs. */
#define SPACE_UNKNOWN UINT64_MAX

/* So many rows of row space are enough for the query on the table, and for its rewriting, if they are at most RANDWYLER_MOST_ROWS; or
 * SPACE_UNKNOWN.
 *
 * Takes the ceiling of every pattern set of the query, and those of the other nodes from them. Each of these calls checks the table and
 * counts the rows of its set: 465 sets of one pattern in unions, on as many records as a table may have, took half a second; what a set of
 * several patterns takes is said under "Time" in docs/INTEGRATION.md. Takes about 52 KB of stack beside that of the calls, at any depth of
 * the query. */
uint64_t space_bound(const uint8_t *table, size_t table_len, const uint8_t *query, size_t query_len);

#endif
