/* The display of a trend store: says whether a facts file and a query file are sound, and if not, what is refused and where.
 * A sound query is shown as a tree, and below it its rewriting, with the trust bounds pushed down.
 *
 *     display FACTS QUERY
 *
 * Exit status: 0 both are sound, also where the query is too long to be rewritten; 1 one is refused; 2 a file cannot be read,
 * the output cannot be written, or the usage is wrong.
 */
#include <inttypes.h>
#include <stdio.h>
#include <stdlib.h>

#include "files.h"
#include "randwyler.h"
#include "refusal.h"
#include "tree.h"

enum { SOUND = 0, REFUSED = 1, UNUSABLE = 2 };

/* Prints a sound query and its rewriting. */
static void show_trees(struct content query)
{
    uint8_t output[RANDWYLER_MOST_RESULT_BYTES];
    struct randwyler_rewritten rewritten = randwyler_rewrite(query.bytes, query.length, output, sizeof output);
    printf("query, %zu bytes:\n", query.length);
    print_tree(stdout, query.bytes, query.length);
    if (rewritten.number != RANDWYLER_ANSWERED) {
        print_refusal("rewriting", rewritten.number, rewritten.place);
        return;
    }
    printf("rewriting, %" PRIu64 " bytes:\n", rewritten.length);
    print_tree(stdout, output, (size_t)rewritten.length);
}

/* Checks both inputs and prints the outcome. */
static int show(struct content facts, struct content query)
{
    struct randwyler_refusal refusal = randwyler_check(facts.bytes, facts.length, query.bytes, query.length);
    if (refusal.number != RANDWYLER_ANSWERED) {
        print_refusal(refused_input(refusal.number), refusal.number, refusal.place);
        return REFUSED;
    }
    printf("sound: facts of %zu records in %zu bytes, query of %zu bytes\n", facts.length / RANDWYLER_RECORD_BYTES, facts.length,
           query.length);
    show_trees(query);
    return SOUND;
}

int main(int argc, char **argv)
{
    if (argc != 3) {
        fputs("usage: display FACTS QUERY\n", stderr);
        return UNUSABLE;
    }
    struct content facts = {NULL, 0}, query = {NULL, 0};
    int status = UNUSABLE;
    if (read_file("display", argv[1], &facts) == 0 && read_file("display", argv[2], &query) == 0) status = show(facts, query);
    free(facts.bytes);
    free(query.bytes);
    return end_output("display") == 0 ? status : UNUSABLE;
}
