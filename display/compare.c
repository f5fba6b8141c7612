/* Evaluates a query and its rewriting on the same facts. Prints both as trees, side by side, and below them how many rows each
 * has, how many rows of row space it takes and how many pairs it tries; then whether the rows are equal, word for word and in the
 * same order, and the rows.
 *
 *     compare FACTS QUERY [mean]
 *
 * With `mean` the trust of a pattern set's row is the mean of its records' trusts in both evaluations, without it the least.
 *
 * Exit status: 0 rows are listed, and they are equal if both are answered; 1 an input is refused, or nothing is answered; 2 a
 * file cannot be read, the output cannot be written, there is no memory, or the usage is wrong; 3 the two do not agree as it is
 * proved that they do.
 */
#define _POSIX_C_SOURCE 200809L /* open_memstream */
#include <inttypes.h>
#include <stdio.h>
#include <stdlib.h>
#include <string.h>

#include "files.h"
#include "randwyler.h"
#include "refusal.h"
#include "row.h"
#include "tree.h"

enum { LISTED = 0, REFUSED = 1, UNUSABLE = 2, BROKEN = 3 };
/* Trees stand side by side if both have at most MOST_COLUMNS columns. The left one takes LEAST_COLUMNS at least, for the line of
 * counts below it, and GAP columns are between them. */
enum { MOST_COLUMNS = 60, LEAST_COLUMNS = 32, GAP = 4 };
enum { SPACE_WORDS = RANDWYLER_MOST_ROWS * RANDWYLER_ROW_WORDS };

/* The query or its rewriting, the choice by which it is evaluated, and the answer to it, whose rows stand in `space`. */
struct side {
    const char *name;
    const uint8_t *bytes;
    size_t length;
    bool mean;
    uint32_t *space;
    struct randwyler_evaluated answer;
};

/* Memory that was asked for; the program ends if there is none. */
static void *given(void *memory)
{
    if (memory != NULL) return memory;
    fputs("compare: no memory\n", stderr);
    exit(UNUSABLE);
}

static void write_tree(FILE *out, const struct side *side)
{
    fprintf(out, "%s, %zu bytes\n", side->name, side->length);
    print_tree(out, side->bytes, side->length);
}

static void write_counts(FILE *out, const struct side *side)
{
    const struct randwyler_evaluated *answer = &side->answer;
    if (answer->number != RANDWYLER_ANSWERED) {
        fprintf(out, "refused %" PRIu32 " at %" PRIu64 ": %s\n", answer->number, answer->place, refused_for(answer->number));
    } else {
        fprintf(out, "rows %" PRIu32 " peak %" PRIu32 " pairs %" PRIu64 "\n", answer->rows, answer->peak, answer->pairs);
    }
}

/* The lines that are written of a side, from malloc. */
static char *lines_of(void (*write)(FILE *, const struct side *), const struct side *side)
{
    char *lines = NULL;
    size_t length;
    FILE *out = given(open_memstream(&lines, &length));
    write(out, side);
    int failed = ferror(out);
    if (fclose(out) != 0 || failed) given(NULL);
    return given(lines);
}

/* The columns of the widest line. */
static size_t columns(const char *lines)
{
    size_t most = 0;
    while (*lines != '\0') {
        size_t width = strcspn(lines, "\n");
        if (width > most) most = width;
        lines += width + (lines[width] == '\n');
    }
    return most;
}

/* Prints two texts side by side, the left one in so many columns. */
static void print_beside(const char *left, const char *right, size_t width)
{
    while (*left != '\0' || *right != '\0') {
        size_t l = strcspn(left, "\n"), r = strcspn(right, "\n");
        printf("%.*s", (int)l, left);
        if (r != 0) printf("%*s%.*s", (int)(GAP + (l < width ? width - l : 0)), "", (int)r, right);
        putchar('\n');
        left += l + (left[l] == '\n');
        right += r + (right[r] == '\n');
    }
}

/* Evaluates a side. What has been printed is shown first, since an evaluation may take long. */
static void evaluate(struct content facts, struct side *side)
{
    fflush(stdout);
    side->answer = randwyler_evaluate(facts.bytes, facts.length, side->bytes, side->length, side->mean, side->space, SPACE_WORDS,
                                      (struct randwyler_tally){0, 0});
}

/* Evaluates a side below its tree. */
static void show_alone(struct content facts, struct side *side, const char *tree)
{
    fputs(tree, stdout);
    evaluate(facts, side);
    write_counts(stdout, side);
}

/* Evaluates two sides below their trees. */
static void show_beside(struct content facts, struct side sides[2], char *trees[2])
{
    size_t width = columns(trees[0]) > LEAST_COLUMNS ? columns(trees[0]) : LEAST_COLUMNS;
    print_beside(trees[0], trees[1], width);
    char *counts[2];
    for (int i = 0; i < 2; i++) {
        evaluate(facts, &sides[i]);
        counts[i] = lines_of(write_counts, &sides[i]);
    }
    print_beside(counts[0], counts[1], width);
    for (int i = 0; i < 2; i++) free(counts[i]);
}

/* Evaluates a query and its rewriting below their trees. */
static void show_both(struct content facts, struct side sides[2])
{
    char *trees[2];
    for (int i = 0; i < 2; i++) trees[i] = lines_of(write_tree, &sides[i]);
    if (columns(trees[0]) <= MOST_COLUMNS && columns(trees[1]) <= MOST_COLUMNS) {
        show_beside(facts, sides, trees);
    } else {
        for (int i = 0; i < 2; i++) show_alone(facts, &sides[i], trees[i]);
    }
    for (int i = 0; i < 2; i++) free(trees[i]);
}

/* The words of row i. */
static const uint32_t *row_of(const struct side *side, size_t i)
{
    return side->space + RANDWYLER_ROW_WORDS * i;
}

/* Lists the rows of a side that is answered. */
static int list(const char *title, const struct side *side)
{
    printf("%s:%s\n", title, side->answer.rows == 0 ? " none" : "");
    for (size_t i = 0; i < side->answer.rows; i++) print_row(row_of(side, i));
    return LISTED;
}

/* Prints a row of a side that is answered. */
static void print_one(const struct side *side, size_t i)
{
    printf("%s: ", side->name);
    if (i < side->answer.rows) print_row(row_of(side, i));
    else puts("no such row");
}

/* Says that what is proved does not hold. */
static int broken(const char *how)
{
    printf("BROKEN: %s, which is proved never to happen\n", how);
    return BROKEN;
}

/* The first row in which two answers differ, or the number of their rows if they are equal. */
static size_t first_difference(const struct side *query, const struct side *rewriting)
{
    size_t i = 0;
    while (i < query->answer.rows && i < rewriting->answer.rows &&
           memcmp(row_of(query, i), row_of(rewriting, i), RANDWYLER_ROW_WORDS * sizeof *query->space) == 0) {
        i++;
    }
    return i;
}

/* Says how the answers compare, and lists the rows. */
static int judge(const struct side *query, const struct side *rewriting)
{
    const struct randwyler_evaluated *of_query = &query->answer, *of_rewriting = &rewriting->answer;
    if (of_query->number != RANDWYLER_ANSWERED && of_rewriting->number != RANDWYLER_ANSWERED) {
        puts("neither is answered: there are no rows to compare");
        return REFUSED;
    }
    if (of_query->number != RANDWYLER_ANSWERED) return list("only the rewriting is answered; its rows", rewriting);
    if (of_rewriting->number != RANDWYLER_ANSWERED) return broken("the query is answered, and its rewriting is not");
    size_t same = first_difference(query, rewriting);
    if (same < of_query->rows || same < of_rewriting->rows) {
        printf("THE ROWS DIFFER, first in row %zu, counted from 0:\n", same);
        print_one(query, same);
        print_one(rewriting, same);
        return broken("the rows differ");
    }
    if (of_rewriting->peak > of_query->peak) return broken("the rewriting has a greater peak");
    if (of_rewriting->pairs > of_query->pairs) return broken("the rewriting has more pairs");
    return list("the rows are equal, in the same order", query);
}

/* Evaluates a query that is too long to be rewritten. */
static int show_query(struct content facts, struct side *query)
{
    char *tree = lines_of(write_tree, query);
    show_alone(facts, query, tree);
    free(tree);
    return query->answer.number != RANDWYLER_ANSWERED ? REFUSED : list("its rows", query);
}

/* Checks both inputs, and compares, by one choice for both evaluations. */
static int compare(struct content facts, struct content query, bool mean, uint32_t *spaces[2])
{
    struct randwyler_refusal refusal = randwyler_check(facts.bytes, facts.length, query.bytes, query.length);
    if (refusal.number != RANDWYLER_ANSWERED) {
        print_refusal(refused_input(refusal.number), refusal.number, refusal.place);
        return REFUSED;
    }
    uint8_t output[RANDWYLER_MOST_RESULT_BYTES];
    struct randwyler_rewritten rewritten = randwyler_rewrite(query.bytes, query.length, output, sizeof output);
    struct side sides[2] = {
        {.name = "query", .bytes = query.bytes, .length = query.length, .mean = mean, .space = spaces[0]},
        {.name = "rewriting", .bytes = output, .length = (size_t)rewritten.length, .mean = mean, .space = spaces[1]},
    };
    if (rewritten.number != RANDWYLER_ANSWERED) {
        print_refusal("rewriting", rewritten.number, rewritten.place);
        return show_query(facts, &sides[0]);
    }
    show_both(facts, sides);
    return judge(&sides[0], &sides[1]);
}

int main(int argc, char **argv)
{
    bool mean = argc == 4 && strcmp(argv[3], "mean") == 0;
    if (argc != 3 && !mean) {
        fputs("usage: compare FACTS QUERY [mean]\n", stderr);
        return UNUSABLE;
    }
    struct content facts = {NULL, 0}, query = {NULL, 0};
    uint32_t *spaces[2];
    int status = UNUSABLE;
    for (int i = 0; i < 2; i++) spaces[i] = given(malloc(SPACE_WORDS * sizeof *spaces[i]));
    if (read_file("compare", argv[1], &facts) == 0 && read_file("compare", argv[2], &query) == 0) {
        status = compare(facts, query, mean, spaces);
    }
    for (int i = 0; i < 2; i++) free(spaces[i]);
    free(facts.bytes);
    free(query.bytes);
    return end_output("compare") == 0 ? status : UNUSABLE;
}
