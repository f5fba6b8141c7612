/* Times randwyler_check beside a plain C loop with the same tests of a table, on a sound table of 65,535 records.
 * The query is one byte, so that the table is all that counts. Rounds alternate; the best round of each stands.
 */
#include <stdio.h>
#include <stdlib.h>

#include "../clock.h"
#include "../record.h"
#include "table.h"

enum { RECORDS = 65535, BYTES = RECORD_BYTES * RECORDS, ROUNDS = 200, CALLS = 4 };

static void fill(uint8_t *table)
{
    for (uint32_t i = 0; i < RECORDS; i++) {
        struct record r = {1 + i / 64, 10 + i / 8 % 8, 1000000 + i % 8, i % 8 != 0 ? i % 2001 : UNKNOWN};
        record_write(table + RECORD_BYTES * (size_t)i, r);
    }
}

static struct randwyler_refusal by_randwyler(const uint8_t *table, size_t length)
{
    const uint8_t query[1] = {0};
    return randwyler_check(table, length, query, 1);
}

typedef struct randwyler_refusal (*checker)(const uint8_t *table, size_t length);

/* Nanoseconds a record of one round. */
static double round_of(checker check, const uint8_t *table)
{
    uint32_t refusals = 0;
    double start = clock_now();
    for (int i = 0; i < CALLS; i++) refusals |= check(table, BYTES).number;
    double end = clock_now();
    if (refusals != 0) {
        fputs("check: a sound table was refused\n", stderr);
        exit(1);
    }
    return (end - start) / CALLS / RECORDS;
}

/* Both have to refuse a table whose last record is not above the one before it. */
static void same_refusal(uint8_t *table)
{
    uint8_t kept[9];
    for (int i = 0; i < 9; i++) {
        kept[i] = table[BYTES - 9 + i];
        table[BYTES - 9 + i] = table[BYTES - 18 + i];
    }
    struct randwyler_refusal ours = by_randwyler(table, BYTES), loops = table_check(table, BYTES);
    if (ours.number != 4 || loops.number != 4 || ours.place != RECORDS - 1 || loops.place != RECORDS - 1) {
        fputs("check: the two do not refuse alike\n", stderr);
        exit(1);
    }
    for (int i = 0; i < 9; i++) table[BYTES - 9 + i] = kept[i];
}

int main(void)
{
    uint8_t *table = calloc(BYTES, 1);
    if (table == NULL) return 1;
    fill(table);
    same_refusal(table);
    double loop = 1e9, ours = 1e9;
    for (int i = 0; i < ROUNDS; i++) {
        double a = round_of(table_check, table), b = round_of(by_randwyler, table);
        if (a < loop) loop = a;
        if (b < ours) ours = b;
    }
    printf("check of a table, %d records, best of %d rounds\n", RECORDS, ROUNDS);
    printf("%-20s %12s %8s\n", "", "ns a record", "ratio");
    printf("%-20s %12.3f %8.2f\n", "C loop at -O2", loop, 1.0);
    printf("%-20s %12.3f %8.2f\n", "randwyler_check", ours, ours / loop);
    free(table);
    return 0;
}
