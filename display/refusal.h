/* Refusals in words. */
#ifndef REFUSAL_H
#define REFUSAL_H

#include <stdint.h>

/* What a refusal of the check is about: facts or query. */
const char *refused_input(uint32_t number);

/* The reason of a refusal; of 8, in the largest row space. */
const char *refused_for(uint32_t number);

/* Prints a line: what is refused, the number, the place and the reason. */
void print_refusal(const char *what, uint32_t number, uint64_t place);

#endif
