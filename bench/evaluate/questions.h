/* The questions that are timed: each as a query and as SQL. */
#ifndef QUESTIONS_H
#define QUESTIONS_H

#include <stdbool.h>
#include <stddef.h>
#include <stdint.h>

#include "store.h"

enum { MOST_QUESTIONS = 16, MOST_QUERY = 64, MOST_REWRITTEN = 5 * MOST_QUERY, MOST_COLUMNS = 4 };

struct question {
    const char *name;
    size_t length;
    uint8_t query[MOST_QUERY];
    /* The strike that is asked for, if any: :strike in the SQL. Which term it is depends on the table, so the query has none yet. */
    enum strike strike;
    /* The query is what the rewriting makes of these bytes. */
    bool rewritten;
    /* The trust of a pattern set's row is the mean of its records' trusts, and not the least. */
    bool mean;
    /* The columns are values of these variables, and then the trust, NULL if it is unknown. */
    unsigned columns;
    uint8_t variables[MOST_COLUMNS];
    const char *sql;
};

extern const struct question questions[];
extern const size_t question_count;

struct query {
    size_t length;
    uint8_t bytes[MOST_REWRITTEN];
};

/* The query of a question on a table, with its strike in it, and rewritten where the question says so. */
struct query question_query(const struct question *q, const uint8_t *table, size_t records);

#endif
