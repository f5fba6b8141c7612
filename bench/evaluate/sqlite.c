#include "sqlite.h"

#include <sqlite3.h>
#include <stdio.h>
#include <stdlib.h>
#include <string.h>

#include "../record.h"
#include "plain.h"
#include "store.h"

/* The last question asked stays prepared. */
struct sqlite {
    const uint8_t *table;
    size_t records;
    sqlite3 *db;
    const struct question *asked;
    sqlite3_stmt *statement;
};

/* What the questions' parameters stand for; :strike depends on the question and the table. */
static const struct {
    const char *name;
    int value;
} parameters[] = {{":sample", SAMPLE}, {":grade", GRADE}, {":pan", PAN}, {":crew", CREW}, {":graded", ONE_GRADE}};

static void require(sqlite3 *db, bool good)
{
    if (good) return;
    fprintf(stderr, "bench: SQLite: %s\n", sqlite3_errmsg(db));
    exit(1);
}

static void run(sqlite3 *db, const char *sql)
{
    require(db, sqlite3_exec(db, sql, NULL, NULL, NULL) == SQLITE_OK);
}

static sqlite3_stmt *prepare(sqlite3 *db, const char *sql)
{
    sqlite3_stmt *s;
    require(db, sqlite3_prepare_v2(db, sql, -1, &s, NULL) == SQLITE_OK);
    return s;
}

static void insert(sqlite3 *db, sqlite3_stmt *s, const uint8_t *record)
{
    const uint64_t mask = (1u << TERM_BITS) - 1;
    uint64_t key = record_key(record);
    uint32_t trust = record_trust(record);
    sqlite3_bind_int(s, 1, (int)(key >> 2 * TERM_BITS));
    sqlite3_bind_int(s, 2, (int)(key >> TERM_BITS & mask));
    sqlite3_bind_int(s, 3, (int)(key & mask));
    if (trust == UNKNOWN) {
        sqlite3_bind_null(s, 4);
    } else {
        sqlite3_bind_int(s, 4, (int)trust - 1000);
    }
    require(db, sqlite3_step(s) == SQLITE_DONE);
    sqlite3_reset(s);
}

struct sqlite *sqlite_open(const uint8_t *table, size_t records, bool indexed)
{
    struct sqlite *lite = calloc(1, sizeof *lite);
    if (lite == NULL) abort();
    lite->table = table;
    lite->records = records;
    int opened = sqlite3_open(":memory:", &lite->db);
    require(lite->db, opened == SQLITE_OK);
    run(lite->db, "CREATE TABLE facts(s INTEGER NOT NULL, p INTEGER NOT NULL, o INTEGER NOT NULL, trust INTEGER,"
                  " PRIMARY KEY(s, p, o)) WITHOUT ROWID; BEGIN");
    sqlite3_stmt *s = prepare(lite->db, "INSERT INTO facts VALUES(?, ?, ?, ?)");
    for (size_t i = 0; i < records; i++) insert(lite->db, s, table + RECORD_BYTES * i);
    sqlite3_finalize(s);
    if (indexed) run(lite->db, "CREATE INDEX facts_pos ON facts(p, o, s); ANALYZE"); /* without ANALYZE it prefers slower plans */
    run(lite->db, "COMMIT");
    return lite;
}

void sqlite_close(struct sqlite *lite)
{
    if (lite == NULL) return;
    sqlite3_finalize(lite->statement);
    sqlite3_close(lite->db);
    free(lite);
}

static void fetch(sqlite3_stmt *s, const struct question *q, uint32_t *row)
{
    memset(row, 0, ROW_WORDS * sizeof *row);
    for (unsigned i = 0; i < q->columns; i++) row[q->variables[i]] = (uint32_t)sqlite3_column_int(s, (int)i); /* NULL gives 0 */
    int trust = (int)q->columns;
    row[TRUST_WORD] = sqlite3_column_type(s, trust) == SQLITE_NULL ? UNKNOWN : (uint32_t)(sqlite3_column_int(s, trust) + 1000);
}

/* Gives a parameter its value, where the statement has it. */
static void bind(sqlite3_stmt *s, const char *name, int value)
{
    int at = sqlite3_bind_parameter_index(s, name);
    if (at != 0) sqlite3_bind_int(s, at, value);
}

static void prepare_question(struct sqlite *lite, const struct question *q)
{
    sqlite3_finalize(lite->statement);
    sqlite3_stmt *s = prepare(lite->db, q->sql);
    for (size_t i = 0; i < sizeof parameters / sizeof parameters[0]; i++) bind(s, parameters[i].name, parameters[i].value);
    if (q->strike != NO_STRIKE) bind(s, ":strike", (int)store_strike(lite->table, lite->records, q->strike));
    lite->statement = s;
    lite->asked = q;
}

size_t sqlite_ask(struct sqlite *lite, const struct question *q, uint32_t *rows, size_t room)
{
    if (lite->asked != q) prepare_question(lite, q);
    sqlite3_stmt *s = lite->statement;
    size_t count = 0;
    uint32_t surplus[ROW_WORDS];
    int status;
    for (; (status = sqlite3_step(s)) == SQLITE_ROW; count++) fetch(s, q, count < room ? rows + ROW_WORDS * count : surplus);
    require(lite->db, status == SQLITE_DONE);
    sqlite3_reset(s);
    return count;
}
