/* An evaluation as version 1 of the header declares it, without a choice, for an archive in which ours has the name evaluate_by: by least,
 * or by mean if MEAN is true. */
#define randwyler_evaluate evaluate_by
#include "randwyler.h"
#undef randwyler_evaluate

struct randwyler_evaluated randwyler_evaluate(const uint8_t *table, size_t table_len, const uint8_t *query, size_t query_len,
                                              uint32_t *space, size_t space_len, struct randwyler_tally tally)
{
    return evaluate_by(table, table_len, query, query_len, MEAN, space, space_len, tally);
}
