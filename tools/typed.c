/* Reads a typed query with the proved call, for tools/typed. The text comes from the standard input; what is asked for is printed:
 *
 *     typed query    the number and the place of the refusal on a line, 0 and 0 if there is none; then the query's bytes
 *     typed tree     the same, and the query's tree in the place of its bytes
 *     typed next     of a start of a text, what may follow it behind white space: a token a line, `end` if it is a whole query
 *
 * A text that no query is read from has refusal 11, and nothing behind the line. Else the refusal is that of the check beside an empty
 * table, 5 or 7.
 *
 * Exit status: 0 printed; 2 the text cannot be read, the output cannot be written, or the usage is wrong.
 */
#include <inttypes.h>
#include <stdio.h>
#include <string.h>

#include "files.h"
#include "randwyler.h"
#include "tree.h"

enum { PRINTED = 0, UNUSABLE = 2 };

/* A text, with one byte more than the longest: what stands behind does not matter then. */
struct text {
    uint8_t bytes[RANDWYLER_MOST_TEXT_BYTES + 1];
    size_t length;
};

/* The query of a text that was read. */
struct query {
    uint8_t bytes[RANDWYLER_MOST_TEXT_QUERY_BYTES];
    struct randwyler_rewritten answer;
};

/* Every token; of variables, terms and thousandths one that is none of the others. */
static const char *const tokens[] = {
    "?15", "1048575", "-1000", "{", "}", "(", ")", ".", ",", "=", "<", "!", "&&", "||",
    "UNION", "OPTIONAL", "FILTER", "TRUST", "AS", "ENSURE", "BOUND",
};

static void read_query(const struct text *text, struct query *query)
{
    query->answer = randwyler_read_text(text->bytes, text->length, query->bytes, sizeof query->bytes);
}

/* Whether some query begins with a text. */
static bool is_start(const struct text *text)
{
    struct query query;
    read_query(text, &query);
    return query.answer.number == RANDWYLER_ANSWERED ||
           (query.answer.number == RANDWYLER_BAD_TEXT && text->length <= RANDWYLER_MOST_TEXT_BYTES &&
            query.answer.place == text->length);
}

/* Whether some query begins with a text, a space and a token. They have to fit. */
static bool may_follow(const struct text *text, const char *token)
{
    struct text longer = *text;
    size_t length = strlen(token);
    if (text->length + 1 + length > RANDWYLER_MOST_TEXT_BYTES) return false;
    longer.bytes[longer.length++] = ' ';
    memcpy(longer.bytes + longer.length, token, length);
    longer.length += length;
    return is_start(&longer);
}

static void print_next(const struct text *text)
{
    struct query query;
    for (size_t i = 0; i < sizeof tokens / sizeof *tokens; i++) {
        if (may_follow(text, tokens[i])) puts(tokens[i]);
    }
    read_query(text, &query);
    if (query.answer.number == RANDWYLER_ANSWERED) puts("end");
}

static void print_query(const struct text *text, bool as_tree)
{
    struct query query;
    read_query(text, &query);
    if (query.answer.number != RANDWYLER_ANSWERED) {
        printf("%" PRIu32 " %" PRIu64 "\n", query.answer.number, query.answer.place);
        return;
    }
    size_t length = (size_t)query.answer.length;
    struct randwyler_refusal refusal = randwyler_check(NULL, 0, query.bytes, length);
    printf("%" PRIu32 " %" PRIu64 "\n", refusal.number, refusal.place);
    if (as_tree) print_tree(stdout, query.bytes, length);
    else fwrite(query.bytes, 1, length, stdout);
}

int main(int argc, char **argv)
{
    static struct text text;
    const char *asked = argc == 2 ? argv[1] : "";
    bool as_tree = strcmp(asked, "tree") == 0;
    text.length = fread(text.bytes, 1, sizeof text.bytes, stdin);
    if (ferror(stdin)) {
        fputs("typed: the text cannot be read\n", stderr);
        return UNUSABLE;
    }
    if (strcmp(asked, "next") == 0) {
        print_next(&text);
    } else if (as_tree || strcmp(asked, "query") == 0) {
        print_query(&text, as_tree);
    } else {
        fputs("usage: typed query|tree|next\n", stderr);
        return UNUSABLE;
    }
    return end_output("typed") == 0 ? PRINTED : UNUSABLE;
}
