/* Randwyler: the calls for C. Link target/staticlib/librandwyler.a (x86-64).
 *
 * Every call keeps no state between calls and uses no memory but what it is lent and the stack, so any number of threads
 * may call at once.
 *
 * A slice is a pointer and a length: in bytes, or in 32-bit words where the pointer is to uint32_t. A slice is lent for the
 * time of the call. The slices of one call do not overlap. A pointer whose length is 0 may be NULL.
 *
 * The formats of tables, queries and rows are in docs/FORMATS.md.
 */
#ifndef RANDWYLER_H
#define RANDWYLER_H

#include <stdbool.h>
#include <stddef.h>
#include <stdint.h>

#ifdef __cplusplus
extern "C" {
#endif

/* The version of this header. The first number rises where a declared call changes or goes, the second where one comes. */
#define RANDWYLER_VERSION_MAJOR 2
#define RANDWYLER_VERSION_MINOR 1

/* Sizes of tables and queries. */
#define RANDWYLER_RECORD_BYTES 9
#define RANDWYLER_MOST_RECORDS 65535
#define RANDWYLER_MOST_QUERY_BYTES 5120         /* of a query to check, to evaluate, or to give the ceiling or totals of */
#define RANDWYLER_MOST_REWRITE_QUERY_BYTES 1024 /* of a query to rewrite */
#define RANDWYLER_MOST_RESULT_BYTES 5120        /* an output of so many bytes holds every result of a rewriting */
#define RANDWYLER_MOST_CEILING 4294967295       /* ceilings are cut here */

/* Sizes of typed queries. */
#define RANDWYLER_MOST_TEXT_BYTES 4096        /* of a text to read */
#define RANDWYLER_MOST_TEXT_QUERY_BYTES 16384 /* an output of so many bytes holds the query of any text */

/* Sizes and words of the row space. */
#define RANDWYLER_ROW_WORDS 17               /* of a row: a cell for each variable, then the row's trust */
#define RANDWYLER_VARIABLES 16               /* so the trust is word 16 of a row, the first one being 0 */
#define RANDWYLER_MOST_ROWS 65535            /* of a capacity */
#define RANDWYLER_TRUST_ZERO 1000            /* a row's trust is so much plus its thousandths: 0 to 2000 */
#define RANDWYLER_UNKNOWN_TRUST 2001         /* a row's trust where it is unknown */
#define RANDWYLER_FIRST_TRUST_CELL 1048576   /* a cell below is a term, or 0 if it is free; any other is a row's trust and so much */
#define RANDWYLER_UNKNOWN_TRUST_CELL 1050577 /* a cell with an unknown trust: the sum of the two above */

/* Sizes of the output of totals. */
#define RANDWYLER_GROUP_WORDS 3            /* of the entry of a group of rows: their cell, their count, their least trust */
#define RANDWYLER_MOST_TOTALS_WORDS 196605 /* an output of so many words holds all entries of any totals: one each for 65,535 rows */

/* Why a call refuses its inputs, and where. Both are 0 if nothing is refused. The numbers have the names below, with RANDWYLER_ in
 * front. Later versions may have more: treat a number that you do not know as a refusal.
 *
 *   number  name              meaning                                                           place
 *   1       TABLE_LENGTH      the table ends inside a record (a record has 9 bytes)             0
 *   2       TOO_MANY_RECORDS  the table has over 65,535 records                                 0
 *   3       BAD_RECORD        a record has a term 0, a trust field over 2000, or a trust field  the record, the first one being 0
 *                             other than 0 although its trust is unknown
 *   4       NOT_RISING        a record does not stand above its predecessor                     the record, the first one being 0
 *   5       QUERY_TOO_LONG    the query is longer than the call accepts                         0
 *   6       MALFORMED         the query is not one well-formed node: it ends early, has an      the byte at which the node,
 *                             unknown kind, a bit that must be 0 but is 1, or a value out of    condition or pattern with the fault
 *                             range, or bytes follow the node                                   starts (the query's length if it is
 *                                                                                               absent), or the first byte behind
 *                                                                                               the node
 *   7       VARIABLE_CLASH    the variable of a project trust is used by a pattern or by a      the byte of the first project trust
 *                             second project trust, anywhere in the query                       whose variable is used so
 *   8       NO_ROOM           the evaluation needs more rows of row space than the capacity     0
 *   9       OUTPUT_TOO_SHORT  rewriting: the output is shorter than the result                  the bytes needed
 *   10      BAD_TOTALS        totals: the variable is above 15                                  0
 *                             totals: the output is shorter than the entries                    the words needed, never 0
 *   11      BAD_TEXT          the text is longer than 4,096 bytes                               4,096
 *                             the text is no query by the grammar of docs/FORMATS.md            the length of the longest start that
 *                                                                                               it shares with some query text, of
 *                                                                                               any length
 *   12      NO_ROOM_FOR_QUERY the output is shorter than the query that the text stands for     the bytes needed
 *
 * If several apply, the table's come before the query's, and a lower number before a higher one. But the table's records
 * are tested one after the other: a 4 of one record comes before a 3 of a later record. And 10 at place 0 comes before 8.
 */
#define RANDWYLER_ANSWERED 0 /* nothing is refused */
#define RANDWYLER_TABLE_LENGTH 1
#define RANDWYLER_TOO_MANY_RECORDS 2
#define RANDWYLER_BAD_RECORD 3
#define RANDWYLER_NOT_RISING 4
#define RANDWYLER_QUERY_TOO_LONG 5
#define RANDWYLER_MALFORMED 6
#define RANDWYLER_VARIABLE_CLASH 7
#define RANDWYLER_NO_ROOM 8
#define RANDWYLER_OUTPUT_TOO_SHORT 9
#define RANDWYLER_BAD_TOTALS 10
#define RANDWYLER_BAD_TEXT 11
#define RANDWYLER_NO_ROOM_FOR_QUERY 12

struct randwyler_refusal {
    uint32_t number;
    uint64_t place;
};

/* KiB of stack to give a call, answered or refused: what the deepest queries that were tried need, and a margin. They are chains of
 * each operator, and of each condition that has operands, as long as the call accepts (25 shapes; for evaluation 21 more, with a
 * join of many pairs; for totals those of evaluation and 65,535 groups; for typed queries 57 texts of 4,096 bytes). tests/archive/run
 * measures what they need, and fails if it is more than these. That no other query needs more is not proved. */
#define RANDWYLER_STACK_CHECK_KIB 800
#define RANDWYLER_STACK_REWRITE_KIB 272
#define RANDWYLER_STACK_READ_TEXT_KIB 704
#define RANDWYLER_STACK_CEILING_KIB 800
#define RANDWYLER_STACK_EVALUATE_KIB 1024
#define RANDWYLER_STACK_TOTALS_KIB 1440

/* Tests a table, and a query of at most 5,120 bytes; the refusals are 1 to 7. Two read-only slices are lent: no byte of them,
 * and no other memory, is written. */
struct randwyler_refusal randwyler_check(const uint8_t *table, size_t table_len, const uint8_t *query, size_t query_len);

/* Why a rewriting, or the reading of a text, is refused, and where, as in struct randwyler_refusal; and the length of the result, 0 on a
 * refusal. */
struct randwyler_rewritten {
    uint32_t number;
    uint64_t place;
    uint64_t length;
};

/* Writes a query that lists the same rows in the same order, by either choice of `mean`, to the front of the output, with every
 * trust bound pushed down as far as it goes. Takes a query of at most 1,024 bytes; the refusals are 5, 6, 7 and 9. No result has
 * more than 5 times the query's bytes: an output of 5,120 always does. The query is not written, nor are the output's bytes behind
 * the result; on a refusal none is. */
struct randwyler_rewritten randwyler_rewrite(const uint8_t *query, size_t query_len, uint8_t *output, size_t output_len);

/* Reads a typed query: writes the query that the text stands for to the front of the output, as the other calls take it. Takes a text of
 * at most 4,096 bytes; the refusals are 11 and 12. No query has more than 4 times the text's bytes: an output of 16,384 always does. A
 * query that was written is well-formed, but may be longer than a call accepts, or have a clash of variables: the other calls refuse it
 * with 5 or 7 then, and never with 6. The text is not written, nor are the output's bytes behind the query; on a refusal none is. */
struct randwyler_rewritten randwyler_read_text(const uint8_t *text, size_t text_len, uint8_t *output, size_t output_len);

/* Why a ceiling is refused, and where, as in struct randwyler_refusal; and the ceiling, 0 on a refusal. */
struct randwyler_ceiling {
    uint32_t number;
    uint64_t place;
    uint32_t ceiling;
};

/* A number of rows that no answered evaluation of the query on the table exceeds, cut at 4,294,967,295. Of a query that has only
 * pattern sets, unions and project trust it is exactly the number of rows, by either choice of `mean`, and an evaluation needs just so
 * many rows of row space. It is counted without row space: for patterns that hold together by shared variables that may take as long as to
 * search for their rows, in the worst case exponentially long in their number. Takes what randwyler_check takes, and refuses what it
 * refuses. Nothing is written. */
struct randwyler_ceiling randwyler_ceiling_of(const uint8_t *table, size_t table_len, const uint8_t *query, size_t query_len);

/* Counts of the calls that it is handed to, evaluations and totals together. A count that has reached 4,294,967,295 stays there. */
struct randwyler_tally {
    uint32_t answered;
    uint32_t refused;
};

/* Why an evaluation is refused, and where, as in struct randwyler_refusal; and, all 0 on a refusal:
 *   rows   how many rows stand in the row space
 *   peak   how many rows of row space the evaluation needs at most at a time
 *   pairs  how many pairs of a left and a right row the joins and left joins have, together
 * and the tally that was given, with answered or refused raised by 1. */
struct randwyler_evaluated {
    uint32_t number;
    uint64_t place;
    uint32_t rows;
    uint32_t peak;
    uint64_t pairs;
    struct randwyler_tally tally;
};

/* Evaluates a query of at most 5,120 bytes on a table, in a row space of `space_len` words. A row is 17 words; as many whole
 * rows as fit, and never more than 65,535, are the capacity; the refusals are 1 to 8. An answer leaves the rows at the front of the
 * row space and 0 in all its later words. Refusal 8 leaves it all 0, 1 to 7 leave it unchanged. What stands in it before the
 * call has no influence. Table and query are not written.
 * `mean` chooses the trust of a pattern set's row. false: the least of the records that its patterns use. true: their mean, in which a
 * record that several patterns use counts once, rounded down to a whole thousandth (-502.5 to -503). By either it is unknown if the
 * trust of one of them is, and 1000 for the empty set. All else is the same: the merge in a join has the lesser trust of the two rows. */
struct randwyler_evaluated randwyler_evaluate(const uint8_t *table, size_t table_len, const uint8_t *query, size_t query_len,
                                              bool mean, uint32_t *space, size_t space_len, struct randwyler_tally tally);

/* Why totals are refused, and where, as in struct randwyler_refusal; and how many words of the output the entries take, 0 on a
 * refusal and where there are no rows; and the tally that was given, with answered raised by 1, or refused on any refusal. */
struct randwyler_totalled {
    uint32_t number;
    uint64_t place;
    uint64_t length;
    struct randwyler_tally tally;
};

/* Evaluates as randwyler_evaluate does, and groups the rows by their cell of a variable, 0 to 15; the rows in which it is free are a
 * group too. Writes an entry of 3 words for each group to the front of the output, in the order of the groups' first rows:
 *   cell   as in these rows; 0 if free
 *   count  how many rows the group has; the sum of all counts is the evaluation's rows
 *   trust  the least trust of these rows, by either choice of `mean`, as in a row; RANDWYLER_UNKNOWN_TRUST if that of one is unknown
 * The refusals, in this order, are 1 to 7; 10 at place 0 for the variable; 8; and 10 at the words needed for the output. 1 to 7, and 10
 * at place 0, leave the row space unchanged. Else it ends as randwyler_evaluate leaves it, even if the output is too short. The output's
 * words behind the entries are not written; on a refusal none is. There are no more groups than rows, so an output of 3 words for each
 * row of the capacity always does. Table and query are not written. */
struct randwyler_totalled randwyler_totals_of(const uint8_t *table, size_t table_len, const uint8_t *query, size_t query_len,
                                              bool mean, uint32_t variable, uint32_t *space, size_t space_len,
                                              uint32_t *output, size_t output_len, struct randwyler_tally tally);

#ifdef __cplusplus
}
#endif

#endif
