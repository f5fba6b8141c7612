/* Times randwyler_read_text on texts of at most 4,096 bytes, as long as they can be: nested and chained as deep as they go, and for
 * comparison a run of triples. Milliseconds, nanoseconds a byte of text, and how many times as long each takes as the triples, byte for
 * byte: what is linear stays near 1. Nothing is timed before the text is read without a refusal. Each text has its rounds in a row, for
 * about a fifth of a second; the best one stands.
 */
#include <math.h>
#include <stdio.h>
#include <stdlib.h>
#include <string.h>

#include "../clock.h"
#include "randwyler.h"

enum { LEAST_ROUNDS = 3, MOST_ROUNDS = 500 };
static const double TEXT_TIME = 2e8; /* nanoseconds */

/* A text: `open` so many times, `middle`, `close` so many times, between `first` and `last`. */
static const struct {
    const char *name, *first, *open, *middle, *close, *last;
} texts[] = {
    {"triples in a row", "{1 1 1", ".1 1 1", "", "", "}"},
    {"groups in a row", "{", "{}", "", "", "}"},
    {"groups of a triple in a row", "{", "{1 1 1}", "", "", "}"},
    {"OPTIONAL in a row", "{", "OPTIONAL{}", "", "", "}"},
    {"UNION in a row", "{{}", "UNION{}", "", "", "}"},
    {"filters in a row", "{", "FILTER(?0=1)", "", "", "}"},
    {"projections in a row", "{", "TRUST AS?0 ", "", "", "}"},
    {"a condition of &&", "{FILTER(?0=?0", "&&?0=?0", "", "", ")}"},
    {"a condition of ||", "{FILTER(?0=?0", "||?0=?0", "", "", ")}"},
    {"a chain of !", "{FILTER(", "!", "BOUND(?0)", "", ")}"},
    {"nested parentheses", "{FILTER(", "(", "BOUND(?0)", ")", ")}"},
    {"nested groups", "", "{", "", "}", ""},
    {"nested groups behind a triple", "", "{1 1 1", "", "}", ""},
    {"nested groups before a triple", "", "{", "", "1 1 1}", ""},
    {"nested groups with a filter", "", "{FILTER(?0=1)", "", "}", ""},
    {"nested groups with a projection", "", "{TRUST AS?0", "", "}", ""},
    {"nested groups with a bound", "", "{ENSURE TRUST(0,0)", "", "}", ""},
    {"nested unions", "", "{{}UNION", "{}", "}", ""},
    {"nested OPTIONAL", "{", "OPTIONAL{", "", "}", "}"},
};

static uint8_t text[RANDWYLER_MOST_TEXT_BYTES], output[RANDWYLER_MOST_TEXT_QUERY_BYTES];

static size_t append(size_t length, const char *part)
{
    size_t more = strlen(part);
    memcpy(text + length, part, more);
    return length + more;
}

/* Writes the text as long as it can be, and gives its length. */
static size_t write_text(size_t i)
{
    size_t ends = strlen(texts[i].first) + strlen(texts[i].middle) + strlen(texts[i].last);
    size_t times = (sizeof text - ends) / (strlen(texts[i].open) + strlen(texts[i].close));
    size_t length = append(0, texts[i].first);
    for (size_t n = 0; n < times; n++) length = append(length, texts[i].open);
    length = append(length, texts[i].middle);
    for (size_t n = 0; n < times; n++) length = append(length, texts[i].close);
    return append(length, texts[i].last);
}

/* The best time of a text, in nanoseconds; its length and that of its query. */
static double time_text(size_t i, size_t *length, uint64_t *query)
{
    *length = write_text(i);
    struct randwyler_rewritten read = randwyler_read_text(text, *length, output, sizeof output);
    if (read.number != RANDWYLER_ANSWERED) {
        fprintf(stderr, "text: %s: refused %u at %llu\n", texts[i].name, read.number, (unsigned long long)read.place);
        exit(1);
    }
    *query = read.length;
    double best = INFINITY, begin = clock_now();
    for (int round = 0; round < LEAST_ROUNDS || (round < MOST_ROUNDS && clock_now() - begin < TEXT_TIME); round++) {
        double start = clock_now();
        randwyler_read_text(text, *length, output, sizeof output);
        best = fmin(best, clock_now() - start);
    }
    return best;
}

int main(void)
{
    double plain = 0;
    printf("reading typed queries, best of up to %d rounds\n", MOST_ROUNDS);
    printf("%-34s %6s %6s %8s %8s %6s\n", "", "bytes", "query", "ms", "ns/byte", "ratio");
    for (size_t i = 0; i < sizeof texts / sizeof *texts; i++) {
        size_t length;
        uint64_t query;
        double time = time_text(i, &length, &query), each = time / (double)length;
        if (i == 0) plain = each;
        printf("%-34s %6zu %6llu %8.3f %8.1f %6.1f\n", texts[i].name, length, (unsigned long long)query, time / 1e6, each, each / plain);
    }
    return 0;
}
