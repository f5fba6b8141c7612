/* The tables whose rows are grouped: the store of strikes, and tables of the samples of strikes 1, 2, 3 and so on, a sample each. */
#ifndef TABLES_H
#define TABLES_H

#include <stddef.h>
#include <stdint.h>

/* STORE is that of store.h. In the others the samples are:
 *   SHUFFLED      the terms from 1 on
 *   STEPS         terms in steps of 16, so that they take all 20 bits
 *   RESIDUES      16 terms to each remainder modulo 65,536
 *   BUCKETS       16 terms to each bucket of randwyler_totals_of, which has no more
 *   BUCKETS_OF_8  an eighth of these terms, each of them 8 times
 *   SCATTERED     terms scattered over the 20 bits as by chance
 *   EQUAL         a single term
 *   RISING        the terms from 1 on, in this order
 * All but the last two are in a random order, and in all but BUCKETS_OF_8 and EQUAL no term is there twice. Trusts are as in the store. */
enum table { STORE, SHUFFLED, STEPS, RESIDUES, BUCKETS, BUCKETS_OF_8, SCATTERED, EQUAL, RISING };

/* Writes a table of so many records, always the same for the same seed. */
void table_fill(enum table kind, uint8_t *table, size_t records, uint64_t seed);

#endif
