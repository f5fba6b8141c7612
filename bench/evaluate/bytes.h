/* The bytes of queries, as docs/FORMATS.md lays them out: initializers of the questions. */
#ifndef BYTES_H
#define BYTES_H

#define QUERY(...) .length = sizeof((const uint8_t[]){__VA_ARGS__}), .query = {__VA_ARGS__}
#define TERM(term) 0, (term) >> 8, (term) & 255 /* below 65,536 */
#define VARIABLE(v) 0x10, 0, v
#define SET(n) n
#define JOIN 0x10
#define LEFT_JOIN_TRUE 0x20, 0x70
#define UNION 0x30
#define PROJECT_TRUST(v) 0x50 | (v)
#define FROM_500 0x60, 0x5D, 0xC7, 0xD0 /* ensure trust 500 to 1000 */

/* The samples ?1 of the strikes ?0. */
#define SAMPLES SET(1), VARIABLE(0), TERM(SAMPLE), VARIABLE(1)

#endif
