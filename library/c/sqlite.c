/* sqlite FILE DATABASE: keeps the lines of a log in the table changes of an SQLite database, each once: a transaction of the log is one
   of the database, and a second run continues after the last. Link with -lsqlite3. */
#include <cuvragyen.h>
#include <sqlite3.h>
#include <stdio.h>
#include <string.h>

static const char SCHEMA[] = "CREATE TABLE IF NOT EXISTS changes (position INTEGER, number INTEGER, line TEXT, PRIMARY KEY (position, number))";
static const char INSERT[] = "INSERT INTO changes VALUES (?, ?, ?)";

static int keep(sqlite3 *database, sqlite3_stmt *insert, uint32_t position, cuvragyen_view lines) {
    const char *line = (const char *)lines.at, *end = line + lines.len;
    sqlite3_exec(database, "BEGIN", NULL, NULL, NULL);
    for (int number = 0; line < end; number++) {
        const char *feed = memchr(line, '\n', end - line);
        sqlite3_bind_int64(insert, 1, position);
        sqlite3_bind_int(insert, 2, number);
        sqlite3_bind_text(insert, 3, line, feed - line, SQLITE_STATIC);
        if (sqlite3_step(insert) != SQLITE_DONE) {
            return 0;
        }
        sqlite3_reset(insert);
        line = feed + 1;
    }
    return sqlite3_exec(database, "COMMIT", NULL, NULL, NULL) == SQLITE_OK;
}

int main(int argc, char **argv) {
    sqlite3 *database;
    sqlite3_stmt *insert, *last;
    FILE *file = argc == 3 ? fopen(argv[1], "rb") : NULL;
    if (!file || sqlite3_open(argv[2], &database) || sqlite3_exec(database, SCHEMA, NULL, NULL, NULL) ||
        sqlite3_prepare_v2(database, INSERT, -1, &insert, NULL) ||
        sqlite3_prepare_v2(database, "SELECT max(position) FROM changes", -1, &last, NULL) || sqlite3_step(last) != SQLITE_ROW) {
        fprintf(stderr, "usage: sqlite FILE DATABASE\n");
        return 2;
    }
    char options[64];
    int len = snprintf(options, sizeof options, "after=%u", (unsigned)sqlite3_column_int64(last, 0));
    sqlite3_finalize(last);
    cuvragyen log = CUVRAGYEN_CLOSED;
    uint32_t result = cuvragyen_open(&log, options, len);
    static uint8_t piece[1 << 17];
    size_t taken;
    while (result == CUVRAGYEN_OK && (taken = fread(piece, 1, sizeof piece, file)) > 0) {
        result = cuvragyen_push(&log, piece, taken);
        while (result == CUVRAGYEN_OK && (result = cuvragyen_next(&log)) == CUVRAGYEN_TRANSACTION) {
            cuvragyen_header commit;
            cuvragyen_view lines;
            cuvragyen_commit(&log, &commit);
            result = cuvragyen_show(&log, &lines) == CUVRAGYEN_TRANSACTION && keep(database, insert, commit.position, lines) ? CUVRAGYEN_OK : CUVRAGYEN_MEMORY;
        }
    }
    cuvragyen_close(&log);
    sqlite3_finalize(insert);
    sqlite3_close(database);
    fclose(file);
    return result == CUVRAGYEN_OK ? 0 : 1;
}
