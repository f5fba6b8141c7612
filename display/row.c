#include "row.h"

#include <inttypes.h>
#include <stdio.h>

#include "randwyler.h"

static void print_trust(uint32_t word)
{
    if (word == RANDWYLER_UNKNOWN_TRUST) putchar('?');
    else printf("%" PRId64, (int64_t)word - RANDWYLER_TRUST_ZERO);
}

/* Prints a variable and its cell, unless it is free. */
static void print_cell(int variable, uint32_t cell)
{
    if (cell == 0) return;
    printf(" ?%d=", variable);
    if (cell < RANDWYLER_FIRST_TRUST_CELL) {
        printf("%" PRIu32, cell);
    } else {
        putchar('t');
        print_trust(cell - RANDWYLER_FIRST_TRUST_CELL);
    }
}

void print_row(const uint32_t *row)
{
    print_trust(row[RANDWYLER_VARIABLES]);
    for (int variable = 0; variable < RANDWYLER_VARIABLES; variable++) print_cell(variable, row[variable]);
    putchar('\n');
}
