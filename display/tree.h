/* Prints the bytes of a query as an indented tree, one node or pattern a line, operands below their operator:
 *
 *     ensure trust 500 to 1000
 *       left join on (bound ?0 and not ?0 = ?1)
 *         pattern set
 *           ?0 20 21
 *         empty pattern set
 */
#ifndef TREE_H
#define TREE_H

#include <stddef.h>
#include <stdint.h>
#include <stdio.h>

/* For bytes that a call accepted. Of other bytes none behind the end is read either: zeros stand in their place. */
void print_tree(FILE *out, const uint8_t *query, size_t length);

#endif
