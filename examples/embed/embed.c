/* The engine in a program in C: checks a table and a query, lists the rows of the query and of its rewriting, and then a line for each
 * strike: how many rows it has, and the least of their trusts.
 *
 *     embed FACTS QUERY [mean]
 *
 * A query whose name ends in .txt is typed. With `mean` the trust of a pattern set's row is the mean of its records' trusts, without it
 * the least.
 *
 * Exit status: 0 the rows were listed; 1 an input was refused; 2 a file cannot be read, or there is no memory.
 */
#include <inttypes.h>
#include <stdio.h>
#include <stdlib.h>
#include <string.h>

#include "randwyler.h"

enum { LISTED = 0, REFUSED = 1, FAILED = 2 };

/* The variable of the query whose cells are strikes. */
enum { STRIKE = 0 };

/* Bytes to lend. */
struct slice {
    const uint8_t *bytes;
    size_t length;
};

/* Prints a refusal, and what to do about it. */
static int print_refusal(uint32_t number, uint64_t place)
{
    static const char *const advice[] = {
        [RANDWYLER_TABLE_LENGTH] = "the table ends inside a record: read it again from its source",
        [RANDWYLER_TOO_MANY_RECORDS] = "the table has too many records: choose fewer for it",
        [RANDWYLER_BAD_RECORD] = "this record has a value out of range: correct it or leave it out",
        [RANDWYLER_NOT_RISING] = "this record does not rise: sort the table and leave repetitions out",
        [RANDWYLER_QUERY_TOO_LONG] = "the query is too long for this call: shorten it",
        [RANDWYLER_MALFORMED] = "the query has a fault at this byte: correct its writer",
        [RANDWYLER_VARIABLE_CLASH] = "the variable of this project trust is used elsewhere: choose another one",
        [RANDWYLER_NO_ROOM] = "the query needs more rows than any row space has: narrow it",
        [RANDWYLER_OUTPUT_TOO_SHORT] = "the output is too short: lend so many bytes",
        [RANDWYLER_BAD_TOTALS] = "the output is too short: lend so many words",
        [RANDWYLER_BAD_TEXT] = "the typed query goes wrong at this byte, or is too long: correct it",
        [RANDWYLER_NO_ROOM_FOR_QUERY] = "the output is too short: lend so many bytes",
    };
    const char *what = number < sizeof advice / sizeof *advice ? advice[number] : "unknown number";
    if (number == RANDWYLER_BAD_TOTALS && place == 0) what = "the variable is above 15: choose another one";
    printf("refused %" PRIu32 " at %" PRIu64 ": %s\n", number, place, what);
    return REFUSED;
}

/* A row's trust, or that of a cell less RANDWYLER_FIRST_TRUST_CELL. */
static void print_trust(uint32_t word)
{
    if (word == RANDWYLER_UNKNOWN_TRUST) putchar('?');
    else printf("%d", (int)word - RANDWYLER_TRUST_ZERO);
}

static void print_cell(uint32_t variable, uint32_t cell)
{
    printf("?%" PRIu32, variable);
    if (cell == 0) {
        fputs(" free", stdout);
    } else if (cell < RANDWYLER_FIRST_TRUST_CELL) {
        printf("=%" PRIu32, cell);
    } else {
        fputs("=t", stdout);
        print_trust(cell - RANDWYLER_FIRST_TRUST_CELL);
    }
}

static void print_row(const uint32_t *row)
{
    print_trust(row[RANDWYLER_VARIABLES]);
    for (uint32_t v = 0; v < RANDWYLER_VARIABLES; v++) {
        if (row[v] == 0) continue;
        putchar(' ');
        print_cell(v, row[v]);
    }
    putchar('\n');
}

/* An entry of totals by a variable. */
static void print_entry(uint32_t variable, const uint32_t *entry)
{
    print_cell(variable, entry[0]);
    printf(": rows %" PRIu32 " least trust ", entry[1]);
    print_trust(entry[2]);
    putchar('\n');
}

/* Evaluates in a row space of so many rows, and as long as it is too small in one of twice as many. Lists the rows. */
static int list(struct slice table, struct slice query, bool mean, size_t rows, struct randwyler_tally *tally)
{
    for (;;) {
        uint32_t *space = malloc(rows * RANDWYLER_ROW_WORDS * sizeof *space);
        if (space == NULL) {
            puts("no memory");
            return FAILED;
        }
        struct randwyler_evaluated answer = randwyler_evaluate(table.bytes, table.length, query.bytes, query.length, mean,
                                                               space, rows * RANDWYLER_ROW_WORDS, *tally);
        *tally = answer.tally;
        if (answer.number == RANDWYLER_ANSWERED) {
            printf("rows %" PRIu32 " peak %" PRIu32 " pairs %" PRIu64 "\n", answer.rows, answer.peak, answer.pairs);
            for (uint32_t i = 0; i < answer.rows; i++) print_row(space + RANDWYLER_ROW_WORDS * i);
        }
        free(space);
        if (answer.number == RANDWYLER_ANSWERED) return LISTED;
        if (answer.number != RANDWYLER_NO_ROOM || rows == RANDWYLER_MOST_ROWS) return print_refusal(answer.number, answer.place);
        rows = rows < RANDWYLER_MOST_ROWS / 2 ? 2 * rows : RANDWYLER_MOST_ROWS;
    }
}

/* Lists totals by a variable, in the most rows, with an output that is never too short. */
static void list_totals(struct slice table, struct slice query, bool mean, uint32_t variable, struct randwyler_tally *tally)
{
    static uint32_t space[RANDWYLER_MOST_ROWS * RANDWYLER_ROW_WORDS], output[RANDWYLER_MOST_TOTALS_WORDS];
    struct randwyler_totalled answer = randwyler_totals_of(table.bytes, table.length, query.bytes, query.length, mean, variable,
                                                           space, RANDWYLER_MOST_ROWS * RANDWYLER_ROW_WORDS,
                                                           output, RANDWYLER_MOST_TOTALS_WORDS, *tally);
    *tally = answer.tally;
    if (answer.number != RANDWYLER_ANSWERED) {
        print_refusal(answer.number, answer.place);
        return;
    }
    printf("groups %" PRIu64 "\n", answer.length / RANDWYLER_GROUP_WORDS);
    for (uint64_t i = 0; i < answer.length; i += RANDWYLER_GROUP_WORDS) print_entry(variable, output + i);
}

/* As many rows as the ceiling says, for a first row space: one at least, and no more than are ever used. */
static size_t first_rows(uint32_t ceiling)
{
    if (ceiling == 0) return 1;
    return ceiling < RANDWYLER_MOST_ROWS ? ceiling : RANDWYLER_MOST_ROWS;
}

static int run(struct slice table, struct slice query, bool mean)
{
    struct randwyler_refusal check = randwyler_check(table.bytes, table.length, query.bytes, query.length);
    if (check.number != RANDWYLER_ANSWERED) return print_refusal(check.number, check.place);

    struct randwyler_ceiling ceiling = randwyler_ceiling_of(table.bytes, table.length, query.bytes, query.length);
    printf("ceiling %" PRIu32 "\n", ceiling.ceiling);
    size_t rows = first_rows(ceiling.ceiling);

    struct randwyler_tally tally = {0, 0};
    fputs("query: ", stdout);
    int status = list(table, query, mean, rows, &tally);

    uint8_t output[RANDWYLER_MOST_RESULT_BYTES];
    struct randwyler_rewritten rewritten = randwyler_rewrite(query.bytes, query.length, output, sizeof output);
    fputs("rewriting: ", stdout);
    if (rewritten.number == RANDWYLER_ANSWERED) {
        query = (struct slice){output, (size_t)rewritten.length};
        status = list(table, query, mean, rows, &tally);
    } else {
        print_refusal(rewritten.number, rewritten.place);
    }

    /* Of the rewriting, or of the query if it is too long to be rewritten. */
    fputs("totals: ", stdout);
    list_totals(table, query, mean, STRIKE, &tally);
    printf("tally: answered %" PRIu32 " refused %" PRIu32 "\n", tally.answered, tally.refused);
    return status;
}

/* Reads a file into a buffer that is a record or a byte longer than what is accepted, so that a longer file is refused too. */
static int read_file(const char *path, uint8_t *buffer, size_t room, struct slice *slice)
{
    FILE *file = fopen(path, "rb");
    if (file != NULL) {
        *slice = (struct slice){buffer, fread(buffer, 1, room, file)};
        int failed = ferror(file);
        fclose(file);
        if (!failed) return LISTED;
    }
    fprintf(stderr, "embed: cannot read %s\n", path);
    return FAILED;
}

/* Reads a typed query: writes its bytes to an output. */
static int read_typed(struct slice text, uint8_t *output, size_t length, struct slice *query)
{
    struct randwyler_rewritten read = randwyler_read_text(text.bytes, text.length, output, length);
    if (read.number != RANDWYLER_ANSWERED) return print_refusal(read.number, read.place);
    *query = (struct slice){output, (size_t)read.length};
    return LISTED;
}

static bool is_typed(const char *path)
{
    const char *dot = strrchr(path, '.');
    return dot != NULL && strcmp(dot, ".txt") == 0;
}

int main(int argc, char **argv)
{
    static uint8_t typed[RANDWYLER_MOST_TEXT_QUERY_BYTES];
    static uint8_t facts[(RANDWYLER_MOST_RECORDS + 1) * RANDWYLER_RECORD_BYTES], bytes[RANDWYLER_MOST_QUERY_BYTES + 1];
    struct slice table, query;
    bool mean = argc == 4 && strcmp(argv[3], "mean") == 0;
    if (argc != 3 && !mean) {
        fputs("usage: embed FACTS QUERY [mean]\n", stderr);
        return FAILED;
    }
    if (read_file(argv[1], facts, sizeof facts, &table) != 0) return FAILED;
    if (read_file(argv[2], bytes, sizeof bytes, &query) != 0) return FAILED;
    if (is_typed(argv[2]) && read_typed(query, typed, sizeof typed, &query) != LISTED) return REFUSED;
    return run(table, query, mean);
}
