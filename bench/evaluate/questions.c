#include "questions.h"

#include <string.h>

#include "bytes.h"
#include "randwyler.h"

/* The records of a strike. Its term is 0, which is none, until question_query puts the table's there. */
#define RECORDS_OF(which) \
    QUERY(SET(1), TERM(0), VARIABLE(0), VARIABLE(1)), .strike = which, .columns = 2, .variables = {0, 1}, \
    .sql = "SELECT p, o, trust FROM facts WHERE s = :strike"
enum { STRIKE_AT = 1, TERM_BYTES = 3 };
/* ?0 has the grade. */
#define GRADED SET(1), VARIABLE(0), TERM(GRADE), TERM(ONE_GRADE)
/* The pan ?1 and the crew ?2 of a strike: two patterns, and a set for each. */
#define PAN_OF(strike) VARIABLE(strike), TERM(PAN), VARIABLE(1)
#define CREW_OF(strike) VARIABLE(strike), TERM(CREW), VARIABLE(2)
#define PAN_AND_CREW(strike) PAN_OF(strike), CREW_OF(strike)
#define ONE_PAN(strike) SET(1), PAN_OF(strike)
#define ONE_CREW(strike) SET(1), CREW_OF(strike)

/* Pan and crew of the strikes of one grade; SQL has an expression for the row's trust. */
#define STAR(trust) \
    QUERY(SET(3), VARIABLE(0), TERM(GRADE), TERM(ONE_GRADE), PAN_AND_CREW(0)), .columns = 3, .variables = {0, 1, 2}, \
    .sql = "SELECT g.s, p.o, c.o, " trust " FROM facts g JOIN facts p ON p.s = g.s JOIN facts c ON c.s = g.s" \
           " WHERE g.p = :grade AND g.o = :graded AND p.p = :pan AND c.p = :crew"

/* Pairs of strikes with one pan and crew. */
#define PAIRS \
    "WITH boiled AS (SELECT p.s, p.o AS pan, c.o AS crew, min(p.trust, c.trust) AS t FROM facts p JOIN facts c ON c.s = p.s" \
    " WHERE p.p = :pan AND c.p = :crew)" \
    " SELECT a.s, a.pan, a.crew, b.s, min(a.t, b.t) FROM boiled a JOIN boiled b ON b.pan = a.pan AND b.crew = a.crew"

const struct question questions[] = {
    {"first strike's records", RECORDS_OF(FIRST_STRIKE)},
    {"middle strike's records", RECORDS_OF(MIDDLE_STRIKE)},
    {"last strike's records", RECORDS_OF(LAST_STRIKE)},

    {"samples, join", QUERY(FROM_500, JOIN, GRADED, SAMPLES), .columns = 2, .variables = {0, 1},
     .sql = "SELECT g.s, m.o, min(g.trust, m.trust) AS t FROM facts g JOIN facts m ON m.s = g.s"
            " WHERE g.p = :grade AND g.o = :graded AND m.p = :sample AND t BETWEEN 500 AND 1000"},

    {"samples, join, rewritten", QUERY(FROM_500, JOIN, GRADED, SAMPLES), .rewritten = true, .columns = 2, .variables = {0, 1},
     .sql = "SELECT g.s, m.o, min(g.trust, m.trust) FROM facts g JOIN facts m ON m.s = g.s"
            " WHERE g.p = :grade AND g.o = :graded AND g.trust BETWEEN 500 AND 1000"
            " AND m.p = :sample AND m.trust BETWEEN 500 AND 1000"},

    {"samples, left join", QUERY(FROM_500, LEFT_JOIN_TRUE, GRADED, SAMPLES), .columns = 2, .variables = {0, 1},
     .sql = "SELECT g.s, m.o, CASE WHEN m.s IS NULL THEN g.trust ELSE min(g.trust, m.trust) END AS t"
            " FROM facts g LEFT JOIN facts m ON m.s = g.s AND m.p = :sample"
            " WHERE g.p = :grade AND g.o = :graded AND t BETWEEN 500 AND 1000"},

    {"samples, left join, rewritten", QUERY(FROM_500, LEFT_JOIN_TRUE, GRADED, SAMPLES), .rewritten = true, .columns = 2,
     .variables = {0, 1},
     .sql = "SELECT g.s, m.o, CASE WHEN m.s IS NULL THEN g.trust ELSE min(g.trust, m.trust) END AS t"
            " FROM facts g LEFT JOIN facts m ON m.s = g.s AND m.p = :sample"
            " WHERE g.p = :grade AND g.o = :graded AND g.trust BETWEEN 500 AND 1000 AND t BETWEEN 500 AND 1000"},

    {"star of three patterns", STAR("min(g.trust, p.trust, c.trust)")},

    /* The three records differ by their predicates; SQL's quotient is rounded towards 0, so it is one of numbers above 0. */
    {"star of three patterns, mean", STAR("(g.trust + p.trust + c.trust + 3000) / 3 - 1000"), .mean = true},

    {"pairs with one pan and crew", QUERY(JOIN, SET(2), PAN_AND_CREW(0), SET(2), PAN_AND_CREW(3)), .columns = 4,
     .variables = {0, 1, 2, 3}, .sql = PAIRS},

    {"pairs, by joins", QUERY(JOIN, JOIN, ONE_PAN(0), ONE_CREW(0), JOIN, ONE_PAN(3), ONE_CREW(3)), .columns = 4,
     .variables = {0, 1, 2, 3}, .sql = PAIRS},
};
const size_t question_count = sizeof questions / sizeof questions[0];
_Static_assert(sizeof questions / sizeof questions[0] <= MOST_QUESTIONS, "room for every question");

struct query question_query(const struct question *q, const uint8_t *table, size_t records)
{
    struct query asked = {.length = q->length}, rewritten;
    memcpy(asked.bytes, q->query, q->length);
    if (q->strike != NO_STRIKE) {
        uint32_t term = store_strike(table, records, q->strike);
        for (int i = 0; i < TERM_BYTES; i++) asked.bytes[STRIKE_AT + i] = (uint8_t)(term >> 8 * (TERM_BYTES - 1 - i));
    }
    if (!q->rewritten) return asked;
    /* A refused rewriting leaves no bytes, and no bytes are no query: the answers then differ. */
    rewritten.length = (size_t)randwyler_rewrite(asked.bytes, asked.length, rewritten.bytes, MOST_REWRITTEN).length;
    return rewritten;
}
