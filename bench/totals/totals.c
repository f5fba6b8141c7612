/* Times randwyler_totals_of beside randwyler_evaluate of the same query, a copy of the rows, a plain C grouping of them (group.c), and
 * SQLite in memory, on the questions of questions.c.
 *
 *   totals time      prints a line a question, with tabs
 *   totals compare   only compares the answers, on small tables; the last line is 'N passed, M failed'
 *
 * The row space has as many rows as the evaluation needs, the output an entry for each row. Nothing is timed before the answers have been
 * compared: the row space of the totals with that of the evaluation and their entries with those of C, word by word, also where the
 * output is a word too short; and the entries with those of SQLite as sets. */
#include <math.h>
#include <stdio.h>
#include <stdlib.h>
#include <string.h>

#include "../clock.h"
#include "../evaluate/plain.h"
#include "../evaluate/sqlite.h"
#include "../record.h"
#include "group.h"
#include "questions.h"

enum { LEAST_ROUNDS = 4, MOST_ROUNDS = 200, MOST_CALLS = 1000 };

/* Places on the stack, and the bytes from one to the next: they go through a cache line. */
enum { PLACES = 4, STACK_STEP = 16 };

/* A question has this time for all its rounds, and a contender that is called several times in a round at least this time in each, in
 * nanoseconds. */
static const double QUESTION_TIME = 3e9, ROUND_TIME = 2e6;

enum contender { TOTALS, EVALUATE, COPY, GROUP, KEYED, INDEXED, CONTENDERS };

/* A question, its table, also in SQLite, and how many rows it has. */
struct bench {
    const struct totals_question *question;
    uint8_t *table;
    size_t records, rows;
    struct sqlite *db[CONTENDERS];
    /* Words of a row space; the row space of all that is timed, that of the evaluation for comparing, and copied rows. */
    size_t words;
    uint32_t *space, *evaluated, *copied;
    /* Words of an output, and the entries of the totals and of C; SQLite's as rows. */
    size_t room;
    uint32_t *entries, *grouped, *fetched;
};

struct counts {
    unsigned passed, failed;
};

/* ---- questions */

static void *allocate(size_t bytes)
{
    void *memory = malloc(bytes);
    if (memory == NULL) abort();
    return memory;
}

static uint32_t *allocate_words(size_t words)
{
    return allocate(words * sizeof(uint32_t));
}

static struct randwyler_evaluated evaluate(const struct bench *b, uint32_t *space, size_t words)
{
    const struct question *q = &b->question->asked;
    const struct randwyler_tally none = {0, 0};
    return randwyler_evaluate(b->table, RECORD_BYTES * b->records, q->query, q->length, q->mean, space, words, none);
}

static struct randwyler_totalled total(const struct bench *b, size_t room)
{
    const struct question *q = &b->question->asked;
    return randwyler_totals_of(b->table, RECORD_BYTES * b->records, q->query, q->length, q->mean, b->question->variable, b->space,
                               b->words, b->entries, room, (struct randwyler_tally){0, 0});
}

static size_t group(const struct bench *b, const uint32_t *space, size_t room)
{
    return group_rows(space, b->rows, b->question->variable, b->grouped, room);
}

static struct bench bench_open(const struct totals_question *question, size_t records, uint64_t seed)
{
    struct bench b = {.question = question, .table = allocate(RECORD_BYTES * records), .records = records};
    table_fill(question->table, b.table, records, seed);
    size_t most = ROW_WORDS * RANDWYLER_MOST_ROWS;
    uint32_t *space = allocate_words(most);
    struct randwyler_evaluated needs = evaluate(&b, space, most);
    free(space);
    if (needs.rows == 0) {
        fprintf(stderr, "totals: %s, %zu records: no row, or refused\n", question->asked.name, records);
        exit(1);
    }
    b.rows = needs.rows;
    b.words = ROW_WORDS * needs.peak;
    b.room = RANDWYLER_GROUP_WORDS * b.rows;
    uint32_t **const spaces[] = {&b.space, &b.evaluated, &b.copied, &b.fetched}, **const outputs[] = {&b.entries, &b.grouped};
    for (int i = 0; i < 4; i++) *spaces[i] = allocate_words(b.words);
    for (int i = 0; i < 2; i++) *outputs[i] = allocate_words(b.room);
    b.db[KEYED] = sqlite_open(b.table, records, false);
    b.db[INDEXED] = sqlite_open(b.table, records, true);
    return b;
}

static void bench_close(struct bench *b)
{
    uint32_t *const words[] = {b->space, b->evaluated, b->copied, b->fetched, b->entries, b->grouped};
    for (int i = 0; i < 6; i++) free(words[i]);
    for (int c = 0; c < CONTENDERS; c++) sqlite_close(b->db[c]);
    free(b->table);
}

/* ---- answers */

static bool there(const struct bench *b, enum contender c)
{
    return c < KEYED || b->db[c] != NULL;
}

static void answer(struct bench *b, enum contender c)
{
    switch (c) {
    case TOTALS: total(b, b->room); break;
    case EVALUATE: evaluate(b, b->space, b->words); break;
    case COPY: memcpy(b->copied, b->space, ROW_WORDS * b->rows * sizeof *b->copied); break;
    case GROUP: group(b, b->space, b->room); break;
    default: sqlite_ask(b->db[c], &b->question->asked, b->fetched, b->rows);
    }
}

static bool same_words(const uint32_t *a, const uint32_t *b, size_t count)
{
    return memcmp(a, b, count * sizeof *a) == 0;
}

/* Fills both outputs alike, so that they are the same where neither is written. */
static void clear_outputs(struct bench *b)
{
    memset(b->entries, 0xA5, b->room * sizeof *b->entries);
    memset(b->grouped, 0xA5, b->room * sizeof *b->grouped);
}

/* Whether both outputs, and both row spaces, are the same. */
static bool same_memory(const struct bench *b)
{
    return same_words(b->entries, b->grouped, b->room) && same_words(b->space, b->evaluated, b->words);
}

/* Whether an output that is a word too short is refused, and not written, and the row space is that of the evaluation. */
static bool same_refusal(struct bench *b, size_t words)
{
    clear_outputs(b);
    memset(b->space, 0xA5, b->words * sizeof *b->space);
    struct randwyler_totalled ours = total(b, words - 1);
    return ours.number == RANDWYLER_BAD_TOTALS && ours.place == words && ours.length == 0 && ours.tally.answered == 0 &&
           ours.tally.refused == 1 && group(b, b->evaluated, words - 1) == words && b->entries[0] == 0xA5A5A5A5 && same_memory(b);
}

/* Whether the totals have the row space of the evaluation and the entries of C. */
static bool same_entries(struct bench *b, size_t words)
{
    clear_outputs(b);
    memset(b->space, 0xA5, b->words * sizeof *b->space);
    struct randwyler_totalled ours = total(b, b->room);
    return ours.number == 0 && ours.place == 0 && ours.length == words && ours.tally.answered == 1 && ours.tally.refused == 0 &&
           group(b, b->evaluated, b->room) == words && same_memory(b);
}

static int compare_entries(const void *a, const void *b)
{
    return memcmp(a, b, RANDWYLER_GROUP_WORDS * sizeof(uint32_t));
}

/* Whether SQLite's entries are ours, which are sorted to compare them. */
static bool same_set(struct bench *b, enum contender c, size_t words)
{
    const size_t bytes = RANDWYLER_GROUP_WORDS * sizeof(uint32_t), count = words / RANDWYLER_GROUP_WORDS;
    if (sqlite_ask(b->db[c], &b->question->asked, b->fetched, b->rows) != count) return false;
    for (size_t i = 0; i < count; i++) {
        const uint32_t *row = b->fetched + ROW_WORDS * i;
        memcpy(b->grouped + RANDWYLER_GROUP_WORDS * i, (const uint32_t[]){row[0], row[1], row[TRUST_WORD]}, bytes);
    }
    qsort(b->entries, count, bytes, compare_entries);
    qsort(b->grouped, count, bytes, compare_entries);
    return same_words(b->entries, b->grouped, words);
}

/* Counts a comparison with another's answer. */
static void count(struct counts *counts, const struct bench *b, const char *other, bool same)
{
    counts->passed += same;
    counts->failed += !same;
    if (!same) fprintf(stderr, "totals: %s, %zu records: another answer by %s\n", b->question->asked.name, b->records, other);
}

static void compare(struct bench *b, struct counts *counts)
{
    evaluate(b, b->evaluated, b->words);
    const size_t words = group(b, b->evaluated, b->room);
    count(counts, b, "C where the output is too short", same_refusal(b, words));
    count(counts, b, "C", same_entries(b, words));
    if (there(b, KEYED)) count(counts, b, "SQLite", same_set(b, KEYED, words));
    if (there(b, INDEXED)) count(counts, b, "SQLite with an index", same_set(b, INDEXED, words));
}

/* ---- times */

/* Nanoseconds of a call behind an evaluation that is not timed, so that every call finds the same in the caches. The call has one of
 * PLACES places on the stack: an evaluation's time depends on where its frames begin in a cache line, and inside the totals they begin
 * elsewhere. */
static double time_behind(struct bench *b, enum contender c, int place)
{
    volatile uint8_t moved[STACK_STEP * (1 + place)];
    moved[0] = 0;
    (void)moved;
    answer(b, EVALUATE);
    double start = clock_now();
    answer(b, c);
    return clock_now() - start;
}

/* Nanoseconds of a call, by as many calls as take ROUND_TIME when each takes `expected`. */
static double time_calls(struct bench *b, enum contender c, double expected)
{
    int calls = (int)fmax(1, fmin(MOST_CALLS, ROUND_TIME / expected));
    double start = clock_now();
    for (int i = 0; i < calls; i++) answer(b, c);
    return (clock_now() - start) / calls;
}

/* The best round of each contender; INFINITY where it is not there. Rounds alternate. SQLite lets rounds pass while it has taken more
 * time than the totals, so that these, whose difference to the evaluation is a small part of both, have many. */
static void time_question(struct bench *b, double *best)
{
    double spent[CONTENDERS] = {0}, start = clock_now();
    for (int c = 0; c < CONTENDERS; c++) best[c] = INFINITY;
    for (int round = 0; round < LEAST_ROUNDS || (round < MOST_ROUNDS && clock_now() - start < QUESTION_TIME); round++) {
        for (enum contender c = TOTALS; c < CONTENDERS; c++) {
            bool behind = c == TOTALS || c == EVALUATE || c == GROUP, waits = c >= KEYED && spent[c] > spent[TOTALS];
            if (!there(b, c) || (waits && round >= LEAST_ROUNDS)) continue;
            double turn = clock_now(), time = behind ? time_behind(b, c, round % PLACES) : time_calls(b, c, best[c]);
            best[c] = fmin(best[c], time);
            spent[c] += clock_now() - turn;
        }
    }
}

/* ---- modes */

static int time_all(void)
{
    puts("question\trows\tgroups\ttotals\tevaluate\tcopy\tplain\tsqlite\tindexed");
    for (size_t i = 0; i < totals_question_count; i++) {
        const struct totals_question *q = &totals_questions[i];
        struct bench b = bench_open(q, q->records, 1);
        struct counts counts = {0, 0};
        compare(&b, &counts);
        if (counts.failed != 0) return 1;
        double best[CONTENDERS];
        time_question(&b, best);
        printf("%s\t%zu\t%zu", q->asked.name, b.rows, group(&b, b.evaluated, b.room) / RANDWYLER_GROUP_WORDS);
        for (int c = 0; c < CONTENDERS; c++) printf("\t%.0f", best[c]);
        puts("");
        fflush(stdout);
        bench_close(&b);
    }
    return 0;
}

static int compare_all(void)
{
    static const size_t records[] = {50, 1500, 12000};
    struct counts counts = {0, 0};
    for (size_t i = 0; i < totals_question_count; i++) {
        for (size_t k = 0; k < sizeof records / sizeof records[0]; k++) {
            struct bench b = bench_open(&totals_questions[i], records[k], 1 + k);
            compare(&b, &counts);
            bench_close(&b);
        }
    }
    printf("%u passed, %u failed\n", counts.passed, counts.failed);
    return counts.failed != 0;
}

int main(int count, char **arguments)
{
    if (count == 2 && strcmp(arguments[1], "time") == 0) return time_all();
    if (count == 2 && strcmp(arguments[1], "compare") == 0) return compare_all();
    fputs("usage: totals time | compare\n", stderr);
    return 2;
}
