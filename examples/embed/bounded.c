/* The engine in a program in C, in one row space that is known to be enough: prints how many rows a query and its rewriting have.
 * The table and the query are those of examples/.
 */
#include <inttypes.h>
#include <stdio.h>
#include <stdlib.h>

#include "randwyler.h"
#include "space_bound.h"

static const uint8_t table[] = {
    0x00, 0x00, 0x10, 0x00, 0x0A, 0x00, 0x00, 0xBF, 0x6C, /* 1 10 11, trust 900 */
    0x00, 0x00, 0x10, 0x00, 0x0A, 0x00, 0x00, 0xCC, 0xB0, /* 1 10 12, trust 200 */
    0x00, 0x00, 0x10, 0x00, 0x14, 0x00, 0x01, 0x5F, 0x08, /* 1 20 21, trust 800 */
    0x00, 0x00, 0x20, 0x00, 0x14, 0x00, 0x01, 0x50, 0x00, /* 2 20 21, trust unknown */
};
static const uint8_t query[] = {
    0x60, 0x5D, 0xC7, 0xD0,                                     /* ensure trust 500 to 1000 */
    0x10,                                                       /* join */
    0x01, 0x10, 0x00, 0x00, 0x00, 0x00, 0x14, 0x00, 0x00, 0x15, /* {?0 20 21} */
    0x01, 0x10, 0x00, 0x00, 0x00, 0x00, 0x0A, 0x10, 0x00, 0x01, /* {?0 10 ?1} */
};

static void evaluate(const char *what, const uint8_t *bytes, size_t length, uint32_t *space, size_t words)
{
    const bool mean = false; /* the trust of a pattern set's row is the least of its records' trusts */
    struct randwyler_tally tally = {0, 0};
    struct randwyler_evaluated answer = randwyler_evaluate(table, sizeof table, bytes, length, mean, space, words, tally);
    printf("%s: number %" PRIu32 " rows %" PRIu32 " peak %" PRIu32 "\n", what, answer.number, answer.rows, answer.peak);
}

int main(void)
{
    uint64_t rows = space_bound(table, sizeof table, query, sizeof query);
    if (rows > RANDWYLER_MOST_ROWS) return 1; /* too much, or SPACE_UNKNOWN: choose in another way */
    size_t words = (size_t)rows * RANDWYLER_ROW_WORDS;
    uint32_t *space = malloc(words * sizeof *space);
    if (space == NULL && words != 0) return 2;

    printf("space bound %" PRIu64 "\n", rows);
    evaluate("query", query, sizeof query, space, words);
    uint8_t output[RANDWYLER_MOST_RESULT_BYTES];
    struct randwyler_rewritten rewritten = randwyler_rewrite(query, sizeof query, output, sizeof output);
    if (rewritten.number == RANDWYLER_ANSWERED) evaluate("rewriting", output, (size_t)rewritten.length, space, words);
    free(space);
    return 0;
}
