/* An archive that breaks what is proved, for display/compare.c: the second evaluation answers otherwise than the first one. The
 * query's second byte says how. */
#include <string.h>

#include "randwyler.h"

enum { VARIABLES = RANDWYLER_VARIABLES, ROW_WORDS = RANDWYLER_ROW_WORDS };
enum { HONEST, OTHER_WORD, ROW_LESS, ROW_MORE, REFUSED, GREATER_PEAK, MORE_PAIRS };

struct randwyler_refusal randwyler_check(const uint8_t *table, size_t table_len, const uint8_t *query, size_t query_len)
{
    (void)table, (void)table_len, (void)query, (void)query_len;
    return (struct randwyler_refusal){0, 0};
}

struct randwyler_rewritten randwyler_rewrite(const uint8_t *query, size_t query_len, uint8_t *output, size_t output_len)
{
    (void)output_len;
    memcpy(output, query, query_len);
    return (struct randwyler_rewritten){0, 0, query_len};
}

/* Two rows: 1000, and 900 with variable 0 bound to 7. */
struct randwyler_evaluated randwyler_evaluate(const uint8_t *table, size_t table_len, const uint8_t *query, size_t query_len,
                                              bool mean, uint32_t *space, size_t space_len, struct randwyler_tally tally)
{
    static int evaluations = 0;
    int lie = evaluations++ == 0 ? HONEST : query[1];
    struct randwyler_evaluated answer = {.rows = 2, .peak = 5, .pairs = 6, .tally = tally};
    (void)table, (void)table_len, (void)query_len, (void)mean;
    memset(space, 0, space_len * sizeof *space);
    space[VARIABLES] = 2000;
    space[ROW_WORDS] = 7;
    space[ROW_WORDS + VARIABLES] = 1900;
    space[2 * ROW_WORDS + VARIABLES] = lie == ROW_MORE ? 1000 : 0;
    switch (lie) {
    case OTHER_WORD: space[ROW_WORDS + VARIABLES] = 1899; break;
    case ROW_LESS: answer.rows = 1; break;
    case ROW_MORE: answer.rows = 3; break;
    case REFUSED: answer = (struct randwyler_evaluated){.number = 8, .tally = tally}; break;
    case GREATER_PEAK: answer.peak = 6; break;
    case MORE_PAIRS: answer.pairs = 7; break;
    default: break;
    }
    return answer;
}
