/* rows FILE..: prints each changed row of logs with its cells, through binary records.

   A line is what happened, the table, the position after the event, and the images: a cell is its column, "=", a letter for its kind,
   and its value; bytes are hexadecimal. */
#include <cuvragyen.h>
#include <cuvragyen_record.h>
#include <inttypes.h>
#include <stdio.h>
#include <stdlib.h>

#include "each_record.h"

enum { MAX_TABLES = 10000 };

static cuvragyen_table tables[MAX_TABLES];

static void print_hex(cuvragyen_view bytes) {
    for (size_t at = 0; at < bytes.len; at++) {
        printf("%02x", bytes.at[at]);
    }
}

static void print_cell(const cuvragyen_cell *cell) {
    switch (cell->kind) {
    case CUVRAGYEN_ABSENT:
        printf("A");
        break;
    case CUVRAGYEN_NULL:
        printf("N");
        break;
    case CUVRAGYEN_SIGNED:
        printf("i%" PRId64, (int64_t)cell->number);
        break;
    case CUVRAGYEN_UNSIGNED:
        printf("u%" PRIu64, cell->number);
        break;
    case CUVRAGYEN_FLOAT:
        printf("f%08" PRIx64, cell->number);
        break;
    case CUVRAGYEN_DOUBLE:
        printf("d%016" PRIx64, cell->number);
        break;
    case CUVRAGYEN_DECIMAL:
        printf("D%.*s", (int)cell->bytes.len, (const char *)cell->bytes.at);
        break;
    default:
        putchar("b-TJU"[cell->kind - CUVRAGYEN_BYTES]);
        print_hex(cell->bytes);
    }
}

/* Prints an image, and passes its cells. */
static void print_image(cuvragyen_table table, cuvragyen_view *rows) {
    cuvragyen_column column;
    cuvragyen_cell cell;
    printf(" |");
    while (cuvragyen_next_column(&table, &column) && cuvragyen_next_cell(rows, &cell)) {
        printf(" ");
        print_hex(column.name);
        printf("=");
        print_cell(&cell);
    }
}

static void print_rows(cuvragyen_element element) {
    static const char *const kinds[] = {"", "insert", "update", "delete"};
    cuvragyen_table *table = &tables[element.table];
    for (uint64_t left = element.rows; left > 0; left--) {
        printf("%s ", kinds[element.kind]);
        print_hex(table->database);
        printf(".");
        print_hex(table->name);
        printf(" %u", element.position);
        print_image(*table, &element.content);
        if (element.kind == CUVRAGYEN_UPDATE) {
            print_image(*table, &element.content);
        }
        printf("\n");
    }
}

static void print_record(cuvragyen_view shown) {
    cuvragyen_record record;
    cuvragyen_element element;
    if (!cuvragyen_read_record(shown, &record)) {
        fprintf(stderr, "rows: a record that isn't one\n");
        exit(3);
    }
    while (cuvragyen_next_element(&record.elements, &element)) {
        if (element.table >= MAX_TABLES) {
            fprintf(stderr, "rows: too many tables\n");
            exit(3);
        }
        if (element.kind == CUVRAGYEN_TABLE) {
            cuvragyen_read_table(element.content, &tables[element.table]);
        } else if (element.kind == CUVRAGYEN_STATEMENT) {
            printf("statement ");
            print_hex(element.database);
            printf(" %u | ", element.position);
            print_hex(element.text);
            printf("\n");
        } else if (element.kind <= CUVRAGYEN_DELETE) {
            print_rows(element);
        }
    }
}

int main(int argc, char **argv) {
    int status = 0;
    for (int at = 1; at < argc; at++) {
        int result = each_record("rows", argv[at], print_record);
        status = result > status ? result : status;
    }
    return status;
}
