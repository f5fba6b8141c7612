/* Tests totals as a program in C asks for them, by least and by mean: too short and long enough outputs and row spaces, and variables
 * up to the greatest.
 * Entries and refusals are worked out by hand; the row space is compared with that of an evaluation. The last line is
 * 'N passed, M failed'.
 */
#include <stdio.h>
#include <string.h>

#include "randwyler.h"

/* The small store W. */
static const uint8_t table[] = {
    0x00, 0x00, 0x10, 0x00, 0x0A, 0x00, 0x00, 0xBF, 0x6C, /* 1 10 11, trust 900 */
    0x00, 0x00, 0x10, 0x00, 0x0A, 0x00, 0x00, 0xCC, 0xB0, /* 1 10 12, trust 200 */
    0x00, 0x00, 0x10, 0x00, 0x14, 0x00, 0x01, 0x5F, 0x08, /* 1 20 21, trust 800 */
    0x00, 0x00, 0x20, 0x00, 0x14, 0x00, 0x01, 0x50, 0x00, /* 2 20 21, trust unknown */
};
/* A union of three sets with two rows each. */
static const uint8_t query[] = {
    0x30,
    0x01, 0x10, 0x00, 0x01, 0x00, 0x00, 0x14, 0x10, 0x00, 0x00, /* {?1 20 ?0}: 800 ?0=21 ?1=1, ? ?0=21 ?1=2 */
    0x30,
    0x01, 0x00, 0x00, 0x01, 0x00, 0x00, 0x0A, 0x10, 0x00, 0x01, /* {1 10 ?1}: 900 ?1=11, 200 ?1=12 */
    0x02, 0x10, 0x00, 0x00, 0x00, 0x00, 0x14, 0x00, 0x00, 0x15, /* {?0 20 21, ?0 10 ?1}, by least: 800 ?0=1 ?1=11, 200 ?0=1 ?1=12; */
    0x10, 0x00, 0x00, 0x00, 0x00, 0x0A, 0x10, 0x00, 0x01,       /* by mean: 850 ?0=1 ?1=11, 500 ?0=1 ?1=12 */
};
enum { ROWS = 6, UNTOUCHED = 7, MOST_WORDS = 100 * RANDWYLER_ROW_WORDS };

/* What the row space holds at the end: what it held before, only 0, or the rows of the evaluation. */
enum left { AS_BEFORE, ZEROS, THE_ROWS };

/* Totals, with mean or else with least, by a variable in so many rows of row space, with an output of so many words; and what they
 * answer. */
struct asked {
    const char *what;
    bool mean;
    uint32_t variable;
    size_t rows, room;
    uint32_t number;
    uint64_t place, length;
    uint32_t entries[12];
    enum left left;
};
static const struct asked all[] = {
    {"by ?0", false, 0, ROWS, 9, 0, 0, 9, {21, 2, 2001, 0, 2, 1200, 1, 2, 1200}, THE_ROWS},
    {"by ?1", false, 1, ROWS, 12, 0, 0, 12, {1, 1, 1800, 2, 1, 2001, 11, 2, 1800, 12, 2, 1200}, THE_ROWS},
    {"by ?15, free in all rows", false, 15, ROWS, 3, 0, 0, 3, {0, 6, 2001}, THE_ROWS},
    {"in more memory than is needed", false, 0, ROWS + 3, 30, 0, 0, 9, {21, 2, 2001, 0, 2, 1200, 1, 2, 1200}, THE_ROWS},
    {"an output a word too short", false, 0, ROWS, 8, RANDWYLER_BAD_TOTALS, 9, 0, {0}, THE_ROWS},
    {"no output", false, 1, ROWS + 3, 0, RANDWYLER_BAD_TOTALS, 12, 0, {0}, THE_ROWS},
    {"a row too few", false, 0, ROWS - 1, 30, RANDWYLER_NO_ROOM, 0, 0, {0}, ZEROS},
    {"a row too few, no output", false, 15, ROWS - 1, 0, RANDWYLER_NO_ROOM, 0, 0, {0}, ZEROS},
    {"a variable too high", false, 16, ROWS, 30, RANDWYLER_BAD_TOTALS, 0, 0, {0}, AS_BEFORE},
    {"a variable too high, a row too few, no output", false, 16, ROWS - 1, 0, RANDWYLER_BAD_TOTALS, 0, 0, {0}, AS_BEFORE},
    {"the greatest number as variable", false, UINT32_MAX, ROWS, 30, RANDWYLER_BAD_TOTALS, 0, 0, {0}, AS_BEFORE},
    /* The least of a group's means: of 850 and 500; of 900 and 850, of 200 and 500. */
    {"by ?0, mean", true, 0, ROWS, 9, 0, 0, 9, {21, 2, 2001, 0, 2, 1200, 1, 2, 1500}, THE_ROWS},
    {"by ?1, mean", true, 1, ROWS, 12, 0, 0, 12, {1, 1, 1800, 2, 1, 2001, 11, 2, 1850, 12, 2, 1200}, THE_ROWS},
    {"an output a word too short, mean", true, 0, ROWS, 8, RANDWYLER_BAD_TOTALS, 9, 0, {0}, THE_ROWS},
    {"a row too few, mean", true, 0, ROWS - 1, 30, RANDWYLER_NO_ROOM, 0, 0, {0}, ZEROS},
    {"a variable too high, mean", true, 16, ROWS, 30, RANDWYLER_BAD_TOTALS, 0, 0, {0}, AS_BEFORE},
};

static int passed, failed;

static void check(const char *what, const char *part, int right)
{
    if (right) {
        passed++;
    } else {
        failed++;
        printf("totals, %s: wrong %s\n", what, part);
    }
}

static void fill(uint32_t *words)
{
    for (size_t i = 0; i < MOST_WORDS; i++) words[i] = UNTOUCHED;
}

static int same(const uint32_t *a, const uint32_t *b)
{
    return memcmp(a, b, MOST_WORDS * sizeof *a) == 0;
}

static void test(const struct asked *asked)
{
    static uint32_t space[MOST_WORDS], output[MOST_WORDS], space_after[MOST_WORDS], output_after[MOST_WORDS];
    const struct randwyler_tally tally = {41, 8};
    const size_t words = asked->rows * RANDWYLER_ROW_WORDS;
    fill(space);
    fill(output);
    fill(space_after);
    fill(output_after);
    if (asked->left == THE_ROWS) {
        randwyler_evaluate(table, sizeof table, query, sizeof query, asked->mean, space_after, words, tally);
    }
    if (asked->left == ZEROS) memset(space_after, 0, words * sizeof *space_after);
    memcpy(output_after, asked->entries, (size_t)asked->length * sizeof *output_after);

    struct randwyler_totalled answer = randwyler_totals_of(table, sizeof table, query, sizeof query, asked->mean, asked->variable,
                                                           space, words, asked->room == 0 ? NULL : output, asked->room, tally);
    uint32_t refused = asked->number != RANDWYLER_ANSWERED;
    check(asked->what, "refusal", answer.number == asked->number && answer.place == asked->place);
    check(asked->what, "length", answer.length == asked->length);
    check(asked->what, "tally", answer.tally.answered == 42 - refused && answer.tally.refused == 8 + refused);
    check(asked->what, "row space", same(space, space_after));
    check(asked->what, "output", same(output, output_after));
}

/* Without records there are no rows, and no output is needed; a tally goes on from call to call. */
static void test_no_rows(void)
{
    struct randwyler_tally tally = {0, 0};
    struct randwyler_totalled answer = randwyler_totals_of(NULL, 0, query, sizeof query, false, 0, NULL, 0, NULL, 0, tally);
    check("no rows", "answer", answer.number == RANDWYLER_ANSWERED && answer.place == 0 && answer.length == 0);
    struct randwyler_evaluated next = randwyler_evaluate(NULL, 0, query, sizeof query, true, NULL, 0, answer.tally);
    answer = randwyler_totals_of(NULL, 0, NULL, 0, true, 16, NULL, 0, NULL, 0, next.tally);
    check("no query, a variable too high", "refusal", answer.number == RANDWYLER_MALFORMED && answer.place == 0);
    check("three calls", "tally", answer.tally.answered == 2 && answer.tally.refused == 1);
}

int main(void)
{
    for (size_t i = 0; i < sizeof all / sizeof *all; i++) test(&all[i]);
    test_no_rows();
    printf("%d passed, %d failed\n", passed, failed);
    return failed != 0;
}
