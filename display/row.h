/* Prints a row of a row space as the program `strikes` does:
 *
 *     800 ?0=1 ?1=11 ?2=t800
 */
#ifndef ROW_H
#define ROW_H

#include <stdint.h>

/* For the RANDWYLER_ROW_WORDS words of a row. */
void print_row(const uint32_t *row);

#endif
