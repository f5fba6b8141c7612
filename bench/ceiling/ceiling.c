/* Times randwyler_ceiling_of and randwyler_evaluate on pattern sets of several patterns, over a table of 65,535 records: milliseconds, and
 * how many times as long each takes as randwyler_check of the same table, which every call contains. The row space is the greatest.
 * Nothing is timed before the ceiling has been compared with the rows: as many where the set is answered, more than 65,535 where it is
 * refused for room. Rounds alternate, for about a second a set; the best round of each stands.
 */
#include <math.h>
#include <stdio.h>
#include <stdlib.h>

#include "../clock.h"
#include "../evaluate/bytes.h"
#include "../evaluate/store.h"
#include "../record.h"
#include "randwyler.h"

enum { BYTES = RECORD_BYTES * RANDWYLER_MOST_RECORDS, WORDS = RANDWYLER_ROW_WORDS * RANDWYLER_MOST_ROWS, MOST_BYTES = 64 };
enum { LEAST_ROUNDS = 3, MOST_ROUNDS = 200 };
static const double SET_TIME = 1e9; /* nanoseconds */

#define FREE(a) VARIABLE(a), VARIABLE(a + 1), VARIABLE(a + 2) /* without a term */
#define NOTHING VARIABLE(15), TERM(99), VARIABLE(15)          /* matches no record */

static const struct {
    const char *name;
    size_t length;
    uint8_t query[MOST_BYTES];
} sets[] = {
    {"two free patterns", QUERY(SET(2), FREE(0), FREE(3))},
    {"five free ones and one without a match", QUERY(SET(6), FREE(0), FREE(3), FREE(6), FREE(9), FREE(12), NOTHING)},
    {"the same, that one first", QUERY(SET(6), NOTHING, FREE(0), FREE(3), FREE(6), FREE(9), FREE(12))},
    {"star of one grade", QUERY(SET(3), VARIABLE(0), TERM(GRADE), TERM(ONE_GRADE), VARIABLE(0), TERM(PAN), VARIABLE(1), VARIABLE(0),
                                TERM(CREW), VARIABLE(2))},
    {"star of all strikes", QUERY(SET(3), VARIABLE(0), TERM(GRADE), VARIABLE(3), VARIABLE(0), TERM(PAN), VARIABLE(1), VARIABLE(0),
                                  TERM(CREW), VARIABLE(2))},
    {"two stars, a pattern of each in turn", QUERY(SET(4), VARIABLE(0), TERM(PAN), VARIABLE(1), VARIABLE(2), TERM(PAN), VARIABLE(3),
                                                   VARIABLE(0), TERM(CREW), VARIABLE(4), VARIABLE(2), TERM(CREW), VARIABLE(5))},
    {"pairs of strikes with one pan", QUERY(SET(2), VARIABLE(0), TERM(PAN), VARIABLE(1), VARIABLE(2), TERM(PAN), VARIABLE(1))},
};

static uint8_t table[BYTES];
static uint32_t space[WORDS];

static struct randwyler_evaluated evaluate(size_t set)
{
    const struct randwyler_tally none = {0, 0};
    return randwyler_evaluate(table, BYTES, sets[set].query, sets[set].length, false, space, WORDS, none);
}

static struct randwyler_ceiling ceiling_of(size_t set)
{
    return randwyler_ceiling_of(table, BYTES, sets[set].query, sets[set].length);
}

static void compare(size_t set)
{
    struct randwyler_ceiling c = ceiling_of(set);
    struct randwyler_evaluated e = evaluate(set);
    bool as_many = e.number == RANDWYLER_ANSWERED && c.ceiling == e.rows;
    bool too_many = e.number == RANDWYLER_NO_ROOM && c.ceiling > RANDWYLER_MOST_ROWS;
    if (c.number == RANDWYLER_ANSWERED && (as_many || too_many)) return;
    fprintf(stderr, "ceiling: %s: ceiling %u, %u rows\n", sets[set].name, c.ceiling, e.rows);
    exit(1);
}

int main(void)
{
    store_fill(table, RANDWYLER_MOST_RECORDS, 1);
    printf("ceiling and evaluation of pattern sets, %d records, best of up to %d rounds\n", RANDWYLER_MOST_RECORDS, MOST_ROUNDS);
    printf("%-40s %10s %10s %8s %12s %8s\n", "", "ceiling", "ms", "ratio", "evaluate, ms", "ratio");
    for (size_t set = 0; set < sizeof sets / sizeof *sets; set++) {
        compare(set);
        double check = INFINITY, ceiling = INFINITY, rows = INFINITY, begin = clock_now();
        for (int round = 0; round < LEAST_ROUNDS || (round < MOST_ROUNDS && clock_now() - begin < SET_TIME); round++) {
            double start = clock_now();
            randwyler_check(table, BYTES, sets[set].query, sets[set].length);
            double checked = clock_now();
            ceiling_of(set);
            double counted = clock_now();
            evaluate(set);
            rows = fmin(rows, clock_now() - counted);
            ceiling = fmin(ceiling, counted - checked);
            check = fmin(check, checked - start);
        }
        printf("%-40s %10u %10.3f %8.1f %12.3f %8.1f\n", sets[set].name, ceiling_of(set).ceiling, ceiling / 1e6, ceiling / check,
               rows / 1e6, rows / check);
    }
    return 0;
}
