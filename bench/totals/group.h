/* The entries of rows by their cells of a variable, as a C programmer would write it down: what the grouping inside randwyler_totals_of
 * is measured against. */
#ifndef GROUP_H
#define GROUP_H

#include <stddef.h>
#include <stdint.h>

/* Writes the entries of at most 65,535 rows to the front of an output of `room` words. Answers how many words they are; where they do
 * not fit, nothing is written. */
size_t group_rows(const uint32_t *rows, size_t count, unsigned variable, uint32_t *output, size_t room);

#endif
