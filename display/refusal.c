#include "refusal.h"

#include <inttypes.h>
#include <stdio.h>

#include "randwyler.h"

/* What a refusal number means: the input at fault, what its place counts, and the reason. */
struct meaning {
    const char *input;
    const char *unit;
    const char *reason;
};

static struct meaning meaning_of(uint32_t number)
{
    switch (number) {
    case RANDWYLER_TABLE_LENGTH: return (struct meaning){"facts", "byte", "the last record is incomplete"};
    case RANDWYLER_TOO_MANY_RECORDS: return (struct meaning){"facts", "byte", "too many records"};
    case RANDWYLER_BAD_RECORD: return (struct meaning){"facts", "record", "a term or the trust has no valid value"};
    case RANDWYLER_NOT_RISING: return (struct meaning){"facts", "record", "not above the record in front of it"};
    case RANDWYLER_QUERY_TOO_LONG: return (struct meaning){"query", "byte", "too long"};
    case RANDWYLER_MALFORMED: return (struct meaning){"query", "byte", "not well-formed here"};
    case RANDWYLER_VARIABLE_CLASH: return (struct meaning){"query", "byte", "the variable of this project trust is used elsewhere too"};
    case RANDWYLER_NO_ROOM: return (struct meaning){"row space", "place", "over 65,535 rows"};
    case RANDWYLER_OUTPUT_TOO_SHORT: return (struct meaning){"output", "length", "the rewriting is that long"};
    default: return (struct meaning){"input", "place", "unknown refusal"};
    }
}

const char *refused_input(uint32_t number)
{
    return meaning_of(number).input;
}

const char *refused_for(uint32_t number)
{
    return meaning_of(number).reason;
}

void print_refusal(const char *what, uint32_t number, uint64_t place)
{
    struct meaning meaning = meaning_of(number);
    printf("%s refused: number %" PRIu32 " at %s %" PRIu64 ": %s\n", what, number, meaning.unit, place, meaning.reason);
}
