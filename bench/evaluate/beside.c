/* Times randwyler_evaluate and randwyler_ceiling_of of two archives, ours and another whose calls are named other_evaluate and
 * other_ceiling_of, on the questions of questions.c and on pattern sets with many rows.
 *
 *   beside RECORDS...   for each table, and then for each set with many rows, prints a line a question: how many rows it has by least,
 *                       milliseconds of both evaluations, and how many times as long the other takes; milliseconds of ours by mean, and how
 *                       many times as long that takes as by least; then our ceiling, with the times of both
 *
 * OTHER_VERSION is the first number of the version of the other archive's header: in 1 an evaluation has no choice and is by least.
 * The row space has as many rows as the table has records, for a set with many rows the most. Nothing is timed before the answers have
 * been compared, every number and every word of the row space: by least with the other's, by mean with those of plain.c. Our ceiling may be
 * less than the other's, which before request 5 was the product over the patterns, but not less than the rows. Rounds alternate, and the
 * best of each stands. */
#include <math.h>
#include <stdio.h>
#include <stdlib.h>
#include <string.h>

#include "../clock.h"
#include "../record.h"
#include "bytes.h"
#include "plain.h"
#include "questions.h"
#include "store.h"

enum { LEAST_ROUNDS = 3, MOST_ROUNDS = 200 };
static const double QUESTION_TIME = 2e9; /* nanoseconds */

/* Ours and the other by least, ours by mean; and plain.c by mean, which is not timed. */
enum contender { OURS, OTHER, OURS_MEAN, PLAIN_MEAN, CONTENDERS };

/* Pattern sets with many rows, each on a table of so many records, so many of which are samples. */
static const struct {
    struct question asked;
    size_t records;
    uint32_t samples;
} many_rows[] = {
    {{"one pattern, 40,000 rows", QUERY(SAMPLES)}, MOST_RECORDS, 40000},
    /* All records, each with every sample. */
    {{"two patterns, 62,400 rows",
      QUERY(SET(2), VARIABLE(0), VARIABLE(1), VARIABLE(2), VARIABLE(3), TERM(SAMPLE), VARIABLE(4))}, 400, 156},
};

static void *allocate(size_t bytes)
{
    void *memory = malloc(bytes);
    if (memory == NULL) abort();
    return memory;
}

/* A table, and the row spaces of the contenders. */
struct store {
    uint8_t *table;
    size_t records, words;
    uint32_t *space[CONTENDERS];
};

/* ---- calls */

static const struct randwyler_tally none = {0, 0};

struct randwyler_ceiling other_ceiling_of(const uint8_t *table, size_t table_len, const uint8_t *query, size_t query_len);

/* The other evaluation, by the declaration of its version. */
#if OTHER_VERSION == 1
struct randwyler_evaluated other_evaluate(const uint8_t *table, size_t table_len, const uint8_t *query, size_t query_len,
                                          uint32_t *space, size_t space_len, struct randwyler_tally tally);

static struct randwyler_evaluated evaluate_other(const struct store *s, const struct query *q)
{
    return other_evaluate(s->table, RECORD_BYTES * s->records, q->bytes, q->length, s->space[OTHER], s->words, none);
}
#else
struct randwyler_evaluated other_evaluate(const uint8_t *table, size_t table_len, const uint8_t *query, size_t query_len,
                                          bool mean, uint32_t *space, size_t space_len, struct randwyler_tally tally);

static struct randwyler_evaluated evaluate_other(const struct store *s, const struct query *q)
{
    return other_evaluate(s->table, RECORD_BYTES * s->records, q->bytes, q->length, false, s->space[OTHER], s->words, none);
}
#endif

static struct randwyler_evaluated evaluate(const struct store *s, enum contender c, const struct query *q)
{
    size_t bytes = RECORD_BYTES * s->records;
    if (c == OTHER) return evaluate_other(s, q);
    if (c == PLAIN_MEAN) return plain_evaluate(s->table, bytes, q->bytes, q->length, true, s->space[c], s->words, none);
    return randwyler_evaluate(s->table, bytes, q->bytes, q->length, c == OURS_MEAN, s->space[c], s->words, none);
}

static struct randwyler_ceiling ceiling_of(const struct store *s, enum contender c, const struct query *q)
{
    size_t bytes = RECORD_BYTES * s->records;
    return c == OTHER ? other_ceiling_of(s->table, bytes, q->bytes, q->length)
                      : randwyler_ceiling_of(s->table, bytes, q->bytes, q->length);
}

/* ---- answers */

/* Whether two contenders answer with the same rows, and some. */
static bool same_rows(const struct store *s, enum contender one, enum contender other, const struct query *q)
{
    struct randwyler_evaluated a = evaluate(s, one, q), b = evaluate(s, other, q);
    return a.number == 0 && b.number == 0 && a.place == b.place && a.rows != 0 && a.rows == b.rows && a.peak == b.peak &&
           a.pairs == b.pairs && a.tally.answered == b.tally.answered && a.tally.refused == b.tally.refused &&
           memcmp(s->space[one], s->space[other], s->words * sizeof *s->space[one]) == 0;
}

static bool right_ceiling(const struct store *s, const struct query *q)
{
    struct randwyler_ceiling a = ceiling_of(s, OURS, q), b = ceiling_of(s, OTHER, q);
    return a.number == 0 && b.number == 0 && a.place == b.place && a.ceiling >= evaluate(s, OURS, q).rows && a.ceiling <= b.ceiling;
}

/* ---- times */

/* The two calls that are timed: rows, and the most there can be. */
typedef uint32_t call(const struct store *, enum contender, const struct query *);

static uint32_t rows(const struct store *s, enum contender c, const struct query *q)
{
    return evaluate(s, c, q).rows;
}

static uint32_t most_rows(const struct store *s, enum contender c, const struct query *q)
{
    return ceiling_of(s, c, q).ceiling;
}

/* Prints what a call answers, and the times of the contenders up to the last one. */
static void time_call(call *answer, enum contender last, const struct store *s, const struct query *q)
{
    double best[] = {[OURS] = INFINITY, [OTHER] = INFINITY, [OURS_MEAN] = INFINITY}, start = clock_now();
    for (int round = 0; round < LEAST_ROUNDS || (round < MOST_ROUNDS && clock_now() - start < QUESTION_TIME); round++) {
        for (enum contender c = OURS; c <= last; c++) {
            double before = clock_now();
            answer(s, c, q);
            best[c] = fmin(best[c], clock_now() - before);
        }
    }
    printf(" %10u %10.4f %10.4f %7.2f", answer(s, OURS, q), best[OURS] / 1e6, best[OTHER] / 1e6, best[OTHER] / best[OURS]);
    if (last == OURS_MEAN) printf(" %10.4f %7.2f", best[OURS_MEAN] / 1e6, best[OURS_MEAN] / best[OURS]);
}

static void time_question(const struct question *question, const struct store *s)
{
    struct query q = question_query(question, s->table, s->records);
    if (!same_rows(s, OURS, OTHER, &q) || !same_rows(s, OURS_MEAN, PLAIN_MEAN, &q) || !right_ceiling(s, &q)) {
        fprintf(stderr, "beside: %s, %zu records: another answer, or no row\n", question->name, s->records);
        exit(1);
    }
    printf("%-30s %8zu", question->name, s->records);
    time_call(rows, OURS_MEAN, s, &q);
    time_call(most_rows, OTHER, s, &q);
    puts("");
    fflush(stdout);
}

/* ---- tables */

static struct store store_open(size_t records, size_t rows)
{
    struct store s = {.table = allocate(RECORD_BYTES * records), .records = records, .words = ROW_WORDS * rows};
    for (int c = 0; c < CONTENDERS; c++) s.space[c] = allocate(s.words * sizeof *s.space[c]);
    return s;
}

static void store_close(struct store *s)
{
    for (int c = 0; c < CONTENDERS; c++) free(s->space[c]);
    free(s->table);
}

static void time_strikes(size_t records)
{
    struct store s = store_open(records, records);
    store_fill(s.table, records, 1);
    for (size_t i = 0; i < question_count; i++) {
        if (!questions[i].mean) time_question(&questions[i], &s); /* those by mean are there by least too */
    }
    store_close(&s);
}

static void time_many_rows(void)
{
    for (size_t i = 0; i < sizeof many_rows / sizeof *many_rows; i++) {
        struct store s = store_open(many_rows[i].records, RANDWYLER_MOST_ROWS);
        store_fill_limited(s.table, s.records, many_rows[i].samples, 1);
        time_question(&many_rows[i].asked, &s);
        store_close(&s);
    }
}

int main(int count, char **arguments)
{
    printf("%-30s %8s %10s %10s %10s %7s %10s %7s", "question", "records", "rows", "ours, ms", "other, ms", "ratio", "mean, ms", "ratio");
    printf(" %10s %10s %10s %7s\n", "ceiling", "ours, ms", "other, ms", "ratio");
    for (int i = 1; i < count; i++) {
        size_t records = strtoul(arguments[i], NULL, 10);
        if (records == 0 || records > MOST_RECORDS) {
            fprintf(stderr, "beside: not a number of records: %s\n", arguments[i]);
            return 2;
        }
        time_strikes(records);
    }
    time_many_rows();
    return 0;
}
