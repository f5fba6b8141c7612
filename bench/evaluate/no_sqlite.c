/* In the place of sqlite.c where SQLite is not there. */
#include "sqlite.h"

struct sqlite *sqlite_open(const uint8_t *table, size_t records, bool indexed)
{
    (void)table, (void)records, (void)indexed;
    return NULL;
}

void sqlite_close(struct sqlite *db)
{
    (void)db;
}

size_t sqlite_ask(struct sqlite *db, const struct question *question, uint32_t *rows, size_t room)
{
    (void)db, (void)question, (void)rows, (void)room;
    return 0;
}
