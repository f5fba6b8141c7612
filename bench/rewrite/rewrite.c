/* Times randwyler_rewrite beside a plain C rewriting with the same refusals, on sound queries of several shapes and 1,024 bytes,
 * and on shorter ones of the shape that takes it longest. Rounds alternate; the best round of each stands. */
#include <stdio.h>
#include <stdlib.h>
#include <string.h>

#include "../clock.h"
#include "push.h"
#include "shapes.h"

enum { QUERY_BYTES = 1024, OUTPUT_BYTES = 5120, ROUNDS = 50, CALLS = 20 };

typedef struct randwyler_rewritten (*rewriter)(const uint8_t *query, size_t query_len, uint8_t *output, size_t output_len);

/* Nanoseconds a byte of the query, and the length of the result. */
struct timing {
    double c, ours;
    size_t result;
};

/* Both have to answer alike and write the same bytes. Answers with the length of the result. */
static size_t same_answer(const uint8_t *query, size_t length, size_t room)
{
    uint8_t one[OUTPUT_BYTES], other[OUTPUT_BYTES];
    memset(one, 0xA5, sizeof one);
    memset(other, 0xA5, sizeof other);
    struct randwyler_rewritten c = push_rewrite(query, length, one, room), ours = randwyler_rewrite(query, length, other, room);
    if (c.number != ours.number || c.place != ours.place || c.length != ours.length || memcmp(one, other, sizeof one) != 0) {
        fputs("rewrite: the two do not answer alike\n", stderr);
        exit(1);
    }
    return (size_t)ours.length;
}

/* The answer to a sound query, and the refusals 9 and 6 of it. */
static size_t same_answers(const uint8_t *query, size_t length)
{
    size_t result = same_answer(query, length, OUTPUT_BYTES);
    if (result == 0) {
        fputs("rewrite: a sound query was refused\n", stderr);
        exit(1);
    }
    same_answer(query, length, result - 1);
    same_answer(query, length - 1, OUTPUT_BYTES);
    return result;
}

/* Nanoseconds a byte of one round. */
static double round_of(rewriter rewrite, const uint8_t *query, size_t length)
{
    uint8_t output[OUTPUT_BYTES];
    uint64_t written = 0;
    double start = clock_now();
    for (int i = 0; i < CALLS; i++) written += rewrite(query, length, output, sizeof output).length;
    double end = clock_now();
    if (written == 0) exit(1);
    return (end - start) / CALLS / (double)length;
}

static struct timing time_shape(const struct shape *shape, size_t length)
{
    uint8_t query[QUERY_BYTES];
    shape_query(shape, query, length);
    struct timing best = {1e9, 1e9, same_answers(query, length)};
    for (int i = 0; i < ROUNDS; i++) {
        double c = round_of(push_rewrite, query, length), ours = round_of(randwyler_rewrite, query, length);
        if (c < best.c) best.c = c;
        if (ours < best.ours) best.ours = ours;
    }
    return best;
}

static void print_timing(const char *name, struct timing timing)
{
    printf("%-32s %7zu %12.3f %18.3f %8.2f\n", name, timing.result, timing.c, timing.ours, timing.ours / timing.c);
}

int main(void)
{
    const struct shape *worst = NULL;
    double most = 0;
    printf("rewriting of %d bytes, ns a byte of the query, best of %d rounds\n", QUERY_BYTES, ROUNDS);
    printf("%-32s %7s %12s %18s %8s\n", "", "result", "C at -O2", "randwyler_rewrite", "ratio");
    for (size_t i = 0; i < shape_count; i++) {
        struct timing timing = time_shape(&shapes[i], QUERY_BYTES);
        print_timing(shapes[i].name, timing);
        if (timing.ours > most) {
            most = timing.ours;
            worst = &shapes[i];
        }
    }
    if (worst == NULL) return 1;
    printf("how it grows: %s\n", worst->name);
    for (size_t length = QUERY_BYTES / 4; length <= QUERY_BYTES; length *= 2) {
        char name[32];
        snprintf(name, sizeof name, "%zu bytes", length);
        print_timing(name, time_shape(worst, length));
    }
    return 0;
}
