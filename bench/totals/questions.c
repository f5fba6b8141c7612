#include "questions.h"

#include "../evaluate/bytes.h"
#include "../evaluate/store.h"
#include "../record.h"

/* The ?2 that the strikes ?0 have by a predicate. */
#define HELD(predicate) SET(1), VARIABLE(0), TERM(predicate), VARIABLE(2)

/* The entries of the rows that some SQL lists, as a cell and a trust each. */
#define ENTRIES(rows) \
    .columns = 2, .variables = {0, 1}, \
    .sql = "SELECT cell, count(*), CASE WHEN count(t) = count(*) THEN min(t) END FROM (" rows ") GROUP BY cell"

/* Samples with what their strikes have by a predicate. The operands and the rows of a join stand in the row space at a time, so that
 * the largest store is too large for it. */
#define JOINED(name, predicate, parameter) \
    {{name, QUERY(JOIN, HELD(predicate), SAMPLES), \
      ENTRIES("SELECT h.o AS cell, min(h.trust, m.trust) AS t FROM facts h JOIN facts m ON m.s = h.s" \
              " WHERE h.p = " parameter " AND m.p = :sample")}, \
     .variable = 2, STORE, 32767}

/* The samples of one of the other tables. */
#define SAMPLED(name, table) \
    {{name, QUERY(SAMPLES), ENTRIES("SELECT o AS cell, trust AS t FROM facts WHERE p = :sample")}, .variable = 1, table, MOST_RECORDS}

const struct totals_question totals_questions[] = {
    {{"samples by strike", QUERY(SAMPLES), ENTRIES("SELECT s AS cell, trust AS t FROM facts WHERE p = :sample")},
     .variable = 0, STORE, MOST_RECORDS},

    {{"samples by trust", QUERY(PROJECT_TRUST(2), SAMPLES),
      ENTRIES("SELECT 1048576 + coalesce(1000 + trust, 2001) AS cell, trust AS t FROM facts WHERE p = :sample")},
     .variable = 2, STORE, MOST_RECORDS},

    {{"mostly free cells", QUERY(UNION, SAMPLES, HELD(GRADE)),
      ENTRIES("SELECT NULL AS cell, trust AS t FROM facts WHERE p = :sample"
              " UNION ALL SELECT o, trust FROM facts WHERE p = :grade")},
     .variable = 2, STORE, MOST_RECORDS},

    JOINED("samples by pan", PAN, ":pan"),
    JOINED("samples by grade", GRADE, ":grade"),
    SAMPLED("shuffled", SHUFFLED),
    SAMPLED("steps of 16", STEPS),
    SAMPLED("16 to a residue", RESIDUES),
    SAMPLED("16 to a bucket", BUCKETS),
    SAMPLED("..., 8 rows each", BUCKETS_OF_8),
    SAMPLED("scattered", SCATTERED),
    SAMPLED("all equal", EQUAL),
    SAMPLED("rising", RISING),
};
const size_t totals_question_count = sizeof totals_questions / sizeof totals_questions[0];
