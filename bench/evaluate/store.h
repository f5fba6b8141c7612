/* Tables of strikes: each strike has a few samples, a grade, a pan and a crew. An eighth of the trusts is unknown, the others
 * are spread evenly over all known ones. */
#ifndef STORE_H
#define STORE_H

#include <stddef.h>
#include <stdint.h>

/* Predicates. */
enum { SAMPLE = 10, GRADE = 20, PAN = 30, CREW = 40 };

/* A grade that an eighth of the strikes have. */
enum { ONE_GRADE = 21 };

/* The strikes of a table's first, middle and last record. */
enum strike { NO_STRIKE, FIRST_STRIKE, MIDDLE_STRIKE, LAST_STRIKE };

/* Writes a table of so many records, always the same for the same seed. */
void store_fill(uint8_t *table, size_t records, uint64_t seed);

/* The same with at most so many samples: the strikes behind the last of them have none. */
void store_fill_limited(uint8_t *table, size_t records, uint32_t samples, uint64_t seed);

/* The subject of one of these strikes, which is in the table; it has at least one record. */
uint32_t store_strike(const uint8_t *table, size_t records, enum strike which);

#endif
