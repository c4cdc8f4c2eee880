/* count_rows FILE..: counts the rows that logs insert, update and delete, by table, through binary records. */
#include <cuvragyen.h>
#include <cuvragyen_record.h>
#include <stdio.h>
#include <stdlib.h>

#include "each_record.h"

enum { MAX_TABLES = 10000 };

struct count {
    char *name;
    unsigned long long rows[4];
};

static struct count counts[MAX_TABLES];
static size_t known;

/* The counts of a table. */
static struct count *counts_of(cuvragyen_view content) {
    cuvragyen_table table;
    char name[1024];
    if (!cuvragyen_read_table(content, &table)) {
        fprintf(stderr, "count_rows: a table that isn't one\n");
        exit(3);
    }
    snprintf(name, sizeof name, "%.*s.%.*s", (int)table.database.len, (const char *)table.database.at, (int)table.name.len,
             (const char *)table.name.at);
    for (size_t at = 0; at < known; at++) {
        if (!strcmp(counts[at].name, name)) {
            return &counts[at];
        }
    }
    if (known == MAX_TABLES) {
        fprintf(stderr, "count_rows: too many tables\n");
        exit(3);
    }
    counts[known].name = strdup(name);
    return &counts[known++];
}

static void take(cuvragyen_view shown) {
    static struct count *tables[MAX_TABLES];
    cuvragyen_record record;
    cuvragyen_element element;
    if (!cuvragyen_read_record(shown, &record)) {
        return;
    }
    while (cuvragyen_next_element(&record.elements, &element)) {
        if (element.kind == CUVRAGYEN_TABLE && element.table < MAX_TABLES) {
            tables[element.table] = counts_of(element.content);
        } else if (element.kind <= CUVRAGYEN_DELETE && element.table < MAX_TABLES) {
            tables[element.table]->rows[element.kind] += element.rows;
        }
    }
}

int main(int argc, char **argv) {
    int status = 0;
    for (int at = 1; at < argc; at++) {
        int result = each_record("count_rows", argv[at], take);
        status = result > status ? result : status;
    }
    for (size_t at = 0; at < known; at++) {
        printf("%s %llu %llu %llu\n", counts[at].name, counts[at].rows[CUVRAGYEN_INSERT], counts[at].rows[CUVRAGYEN_UPDATE],
               counts[at].rows[CUVRAGYEN_DELETE]);
        free(counts[at].name);
    }
    return status;
}
