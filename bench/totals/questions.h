/* The questions whose totals are timed. */
#ifndef TOTALS_QUESTIONS_H
#define TOTALS_QUESTIONS_H

#include "../evaluate/questions.h"
#include "tables.h"

/* A query, the variable by whose cells its rows are grouped, and the table. The question's SQL lists cells, counts and least trusts: as a
 * row, the cell is the value of ?0 and the count that of ?1. */
struct totals_question {
    struct question asked;
    unsigned variable;
    enum table table;
    size_t records;
};

extern const struct totals_question totals_questions[];
extern const size_t totals_question_count;

#endif
