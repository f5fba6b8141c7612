/* SQLite in memory: a table facts(s, p, o, trust) with the primary key s, p, o, and the questions asked of it in SQL. */
#ifndef SQLITE_H
#define SQLITE_H

#include "questions.h"

struct sqlite;

/* Loads a checked table, which has to stay until the end, and makes an index by p, o, s if asked to. NULL where SQLite is not
 * compiled in. */
struct sqlite *sqlite_open(const uint8_t *table, size_t records, bool indexed);
void sqlite_close(struct sqlite *db);

/* Asks a question and fetches all rows, as rows of 17 words. The statement is prepared unless the question is the one asked last.
 * Answers how many rows there are; rows that do not fit are only counted. */
size_t sqlite_ask(struct sqlite *db, const struct question *question, uint32_t *rows, size_t room);

#endif
