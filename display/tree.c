#include "tree.h"

#include <inttypes.h>

#include "randwyler.h"

/* What is left of a query, and where its tree goes. */
struct rest {
    const uint8_t *bytes;
    size_t length;
    FILE *out;
};

/* The next bytes, at most 4, as a number. */
static uint32_t take(struct rest *rest, int count)
{
    uint32_t number = 0;
    for (int i = 0; i < count; i++) {
        number <<= 8;
        if (rest->length == 0) continue;
        number |= *rest->bytes++;
        rest->length--;
    }
    return number;
}

/* Starts a line. */
static void indent(const struct rest *rest, int depth)
{
    for (int i = 0; i < depth; i++) fputs("  ", rest->out);
}

static void print_patterns(struct rest *rest, uint32_t count, int depth)
{
    fputs(count == 0 ? "empty pattern set\n" : "pattern set\n", rest->out);
    for (uint32_t i = 0; i < count; i++) {
        indent(rest, depth);
        for (int slot = 0; slot < 3; slot++) {
            uint32_t field = take(rest, 3);
            fprintf(rest->out, "%s%s%" PRIu32, slot == 0 ? "" : " ", field >> 20 == 1 ? "?" : "", field & 0xFFFFF);
        }
        fputc('\n', rest->out);
    }
}

/* Prints a condition within a line. */
static void print_condition(struct rest *rest)
{
    uint32_t head = take(rest, 1), n = head & 15;
    switch (head >> 4) {
    case 0: fprintf(rest->out, "bound ?%" PRIu32, n); return;
    case 1: fprintf(rest->out, "?%" PRIu32 " = ?%" PRIu32, n, take(rest, 1)); return;
    case 2: fprintf(rest->out, "?%" PRIu32 " = %" PRIu32, n, take(rest, 3)); return;
    case 3: fprintf(rest->out, "?%" PRIu32 " < ?%" PRIu32, n, take(rest, 1)); return;
    case 4:
        fputs("not ", rest->out);
        print_condition(rest);
        return;
    case 5:
    case 6:
        fputc('(', rest->out);
        print_condition(rest);
        fputs(head >> 4 == 5 ? " and " : " or ", rest->out);
        print_condition(rest);
        fputc(')', rest->out);
        return;
    case 7: fputs("true", rest->out); return;
    default: fputs("unknown condition", rest->out);
    }
}

/* Prints an operator and the condition behind it. */
static void print_on(const char *operator, struct rest *rest)
{
    fputs(operator, rest->out);
    print_condition(rest);
    fputc('\n', rest->out);
}

/* Prints the line of a node, and of its patterns, and answers how many operands follow. */
static int print_head(struct rest *rest, int depth)
{
    uint32_t head = take(rest, 1), n = head & 15;
    indent(rest, depth);
    switch (head >> 4) {
    case 0: print_patterns(rest, n, depth + 1); return 0;
    case 1: fputs("join\n", rest->out); return 2;
    case 2: print_on("left join on ", rest); return 2;
    case 3: fputs("union\n", rest->out); return 2;
    case 4: print_on("filter ", rest); return 1;
    case 5: fprintf(rest->out, "project trust ?%" PRIu32 "\n", n); return 1;
    case 6: {
        uint32_t bounds = take(rest, 3);
        int low = (int)(bounds >> 12) - RANDWYLER_TRUST_ZERO, high = (int)(bounds & 0xFFF) - RANDWYLER_TRUST_ZERO;
        fprintf(rest->out, "ensure trust %d to %d\n", low, high);
        return 1;
    }
    default: fputs("unknown node\n", rest->out); return 0;
    }
}

static void print_node(struct rest *rest, int depth)
{
    int operands = print_head(rest, depth);
    for (int i = 0; i < operands; i++) print_node(rest, depth + 1);
}

void print_tree(FILE *out, const uint8_t *query, size_t length)
{
    struct rest rest = {query, length, out};
    print_node(&rest, 1);
}
