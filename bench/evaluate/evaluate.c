/* Times randwyler_evaluate beside a plain C evaluation (plain.c) and SQLite in memory, on the questions of questions.c.
 *
 *   evaluate time      on tables that double, and on one of 7,281 records; prints a line a question and table, with tabs
 *   evaluate compare   only compares the answers, on small tables; the last line is 'N passed, M failed'
 *   evaluate once QUESTION RECORDS   a single call of randwyler_evaluate, for a profiler; questions count from 0
 *
 * The row space has as many rows as the table has records. Nothing is timed before the answers have been compared: of the two
 * evaluations every number and every word of the row space, of SQLite's the rows as a multiset. */
#include <math.h>
#include <stdio.h>
#include <stdlib.h>
#include <string.h>

#include "../clock.h"
#include "../record.h"
#include "plain.h"
#include "questions.h"
#include "sqlite.h"
#include "store.h"

enum { LOADS = 3, LEAST_ROUNDS = 3, MOST_ROUNDS = 200, MOST_CALLS = 1000 };

/* A question has this time for all its rounds, and a contender at least this time in each, in nanoseconds. */
static const double QUESTION_TIME = 2e9, ROUND_TIME = 2e6;

enum contender { OURS, PLAIN, KEYED, INDEXED, CONTENDERS };

/* A table, the questions' queries on it, the contenders' row spaces of `words` words, and the table in SQLite. */
struct bench {
    uint8_t *table;
    size_t records, words;
    struct query queries[MOST_QUESTIONS];
    uint32_t *space[CONTENDERS];
    struct sqlite *db[CONTENDERS];
    double load[CONTENDERS];
};

/* ---- tables */

static void *allocate(size_t bytes)
{
    void *memory = malloc(bytes);
    if (memory == NULL) abort();
    return memory;
}

static void load(struct bench *b, enum contender c, int loads)
{
    b->load[c] = INFINITY;
    for (int i = 0; i < loads; i++) {
        sqlite_close(b->db[c]);
        double start = clock_now();
        b->db[c] = sqlite_open(b->table, b->records, c == INDEXED);
        if (b->db[c] != NULL) b->load[c] = fmin(b->load[c], clock_now() - start);
    }
}

static struct bench bench_open(size_t records, uint64_t seed, int loads)
{
    struct bench b = {.table = allocate(RECORD_BYTES * records), .records = records, .words = ROW_WORDS * records};
    store_fill(b.table, records, seed);
    for (size_t i = 0; i < question_count; i++) b.queries[i] = question_query(&questions[i], b.table, records);
    for (int c = 0; c < CONTENDERS; c++) b.space[c] = allocate(b.words * sizeof *b.space[c]);
    load(&b, KEYED, loads);
    load(&b, INDEXED, loads);
    return b;
}

static void bench_close(struct bench *b)
{
    for (int c = 0; c < CONTENDERS; c++) {
        sqlite_close(b->db[c]);
        free(b->space[c]);
    }
    free(b->table);
}

/* ---- answers */

static struct randwyler_evaluated evaluate(struct bench *b, enum contender c, size_t question)
{
    const struct randwyler_tally none = {0, 0};
    const struct query *q = &b->queries[question];
    size_t bytes = RECORD_BYTES * b->records;
    bool mean = questions[question].mean;
    if (c == OURS) return randwyler_evaluate(b->table, bytes, q->bytes, q->length, mean, b->space[c], b->words, none);
    return plain_evaluate(b->table, bytes, q->bytes, q->length, mean, b->space[c], b->words, none);
}

static bool there(const struct bench *b, enum contender c)
{
    return c == OURS || c == PLAIN || b->db[c] != NULL;
}

/* Lets a contender answer, in its row space. Answers how many rows there are. */
static size_t answer(struct bench *b, enum contender c, size_t question)
{
    if (c == OURS || c == PLAIN) return evaluate(b, c, question).rows;
    return sqlite_ask(b->db[c], &questions[question], b->space[c], b->records);
}

static bool same_counts(struct randwyler_evaluated a, struct randwyler_evaluated b)
{
    return a.number == b.number && a.place == b.place && a.rows == b.rows && a.peak == b.peak && a.pairs == b.pairs &&
           a.tally.answered == b.tally.answered && a.tally.refused == b.tally.refused;
}

static int compare_rows(const void *a, const void *b)
{
    return memcmp(a, b, ROW_WORDS * sizeof(uint32_t));
}

static bool same_rows(uint32_t *a, uint32_t *b, size_t rows)
{
    const size_t bytes = ROW_WORDS * sizeof *a;
    qsort(a, rows, bytes, compare_rows);
    qsort(b, rows, bytes, compare_rows);
    return memcmp(a, b, rows * bytes) == 0;
}

/* Whether a contender's answer is ours, which stands in our row space; SQLite's rows and ours are sorted to compare them. */
static bool agrees(struct bench *b, enum contender c, size_t question, struct randwyler_evaluated ours)
{
    if (ours.number != 0 || ours.rows == 0) return false;
    if (c != PLAIN) return answer(b, c, question) == ours.rows && same_rows(b->space[OURS], b->space[c], ours.rows);
    return same_counts(ours, evaluate(b, c, question)) &&
           memcmp(b->space[OURS], b->space[c], b->words * sizeof *b->space[c]) == 0;
}

/* Compares the contenders' answers to a question: raises *passed for each that is ours, else *failed. */
static void compare(struct bench *b, size_t question, unsigned *passed, unsigned *failed)
{
    static const char *const names[CONTENDERS] = {"", "the plain evaluation", "SQLite", "SQLite with an index"};
    /* What stands in a row space before the call has no influence. */
    memset(b->space[OURS], 0xA5, b->words * sizeof *b->space[OURS]);
    memset(b->space[PLAIN], 0x5A, b->words * sizeof *b->space[PLAIN]);
    struct randwyler_evaluated ours = evaluate(b, OURS, question);
    for (enum contender c = PLAIN; c < CONTENDERS; c++) {
        if (!there(b, c)) continue;
        if (agrees(b, c, question, ours)) {
            ++*passed;
        } else {
            ++*failed;
            fprintf(stderr, "evaluate: %s, %zu records: another answer by %s\n", questions[question].name, b->records, names[c]);
        }
    }
}

/* ---- times */

/* Nanoseconds of a call, by as many calls as take ROUND_TIME when each takes `expected`. */
static double time_calls(struct bench *b, enum contender c, size_t question, double expected)
{
    int calls = (int)fmax(1, fmin(MOST_CALLS, ROUND_TIME / expected));
    double start = clock_now();
    for (int i = 0; i < calls; i++) answer(b, c, question);
    return (clock_now() - start) / calls;
}

/* The best round of each contender; INFINITY where it is not there. Rounds alternate. */
static void time_question(struct bench *b, size_t question, double *best)
{
    for (int c = 0; c < CONTENDERS; c++) best[c] = INFINITY;
    double start = clock_now();
    for (int round = 0; round < LEAST_ROUNDS || (round < MOST_ROUNDS && clock_now() - start < QUESTION_TIME); round++) {
        for (enum contender c = OURS; c < CONTENDERS; c++) {
            if (there(b, c)) best[c] = fmin(best[c], time_calls(b, c, question, best[c]));
        }
    }
}

static void time_table(size_t records)
{
    struct bench b = bench_open(records, 1, LOADS);
    unsigned passed = 0, failed = 0;
    for (size_t i = 0; i < question_count; i++) compare(&b, i, &passed, &failed);
    if (failed != 0) exit(1);
    for (size_t i = 0; i < question_count; i++) {
        double best[CONTENDERS];
        time_question(&b, i, best);
        struct randwyler_evaluated ours = evaluate(&b, OURS, i);
        printf("%s\t%zu\t%u\t%u\t%llu", questions[i].name, records, ours.rows, ours.peak, (unsigned long long)ours.pairs);
        for (int c = 0; c < CONTENDERS; c++) printf("\t%.0f", best[c]);
        printf("\t%.0f\t%.0f\n", b.load[KEYED], b.load[INDEXED]);
        fflush(stdout);
    }
    bench_close(&b);
}

/* ---- modes */

static int time_all(void)
{
    static const size_t records[] = {4095, 7281, 8191, 16383, 32767, MOST_RECORDS};
    puts("question\trecords\trows\tpeak\tpairs\tours\tplain\tsqlite\tindexed\tload\tload indexed");
    for (size_t i = 0; i < sizeof records / sizeof records[0]; i++) {
        fprintf(stderr, "evaluate: %zu records\n", records[i]);
        time_table(records[i]);
    }
    return 0;
}

static int compare_all(void)
{
    static const size_t records[] = {1500, 12000};
    unsigned passed = 0, failed = 0;
    for (uint64_t seed = 1; seed <= 4; seed++) {
        for (size_t i = 0; i < sizeof records / sizeof records[0]; i++) {
            struct bench b = bench_open(records[i], seed, 1);
            for (size_t question = 0; question < question_count; question++) compare(&b, question, &passed, &failed);
            bench_close(&b);
        }
    }
    printf("%u passed, %u failed\n", passed, failed);
    return failed != 0;
}

static int once(size_t question, size_t records)
{
    if (question >= question_count || records == 0 || records > MOST_RECORDS) return 2;
    struct bench b = bench_open(records, 1, 1);
    struct randwyler_evaluated ours = evaluate(&b, OURS, question);
    printf("%s: rows %u peak %u pairs %llu\n", questions[question].name, ours.rows, ours.peak, (unsigned long long)ours.pairs);
    bench_close(&b);
    return ours.number != 0;
}

int main(int count, char **arguments)
{
    if (count == 2 && strcmp(arguments[1], "time") == 0) return time_all();
    if (count == 2 && strcmp(arguments[1], "compare") == 0) return compare_all();
    if (count == 4 && strcmp(arguments[1], "once") == 0) {
        return once(strtoul(arguments[2], NULL, 10), strtoul(arguments[3], NULL, 10));
    }
    fputs("usage: evaluate time | compare | once QUESTION RECORDS\n", stderr);
    return 2;
}
