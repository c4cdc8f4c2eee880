/* cuvragyen_record.h: reads the binary records that cuvragyen_show makes of a log with the option records=1.

   docs/library/RECORDS.md describes their layout. A record, its elements, tables, columns and cells are views of the bytes of
   cuvragyen_show, and valid as long as these; nothing is copied or freed:

       cuvragyen_record record;
       cuvragyen_element element;
       if (cuvragyen_read_record(lines, &record))
           while (cuvragyen_next_element(&record.elements, &element))
               if (element.kind <= CUVRAGYEN_DELETE)
                   rows[element.table] += element.rows;

   Each function returns false at the end of its bytes, and for bytes that aren't in the layout. */
#ifndef CUVRAGYEN_RECORD_H
#define CUVRAGYEN_RECORD_H

#include "cuvragyen.h"

#include <string.h>

#ifdef __cplusplus
extern "C" {
#endif

/* The kinds of elements. Skip those of other numbers. */
enum { CUVRAGYEN_INSERT = 1, CUVRAGYEN_UPDATE = 2, CUVRAGYEN_DELETE = 3, CUVRAGYEN_STATEMENT = 4, CUVRAGYEN_TABLE = 5 };

/* The kinds of cells. */
enum {
    CUVRAGYEN_ABSENT = 0,       /* the log hasn't this column in this image */
    CUVRAGYEN_NULL = 1,
    CUVRAGYEN_SIGNED = 2,       /* number, as an int64_t */
    CUVRAGYEN_UNSIGNED = 3,     /* number; the bits of a BIT or a SET, the member of an ENUM */
    CUVRAGYEN_FLOAT = 4,        /* number is the bits of a float */
    CUVRAGYEN_DOUBLE = 5,       /* number is the bits of a double */
    CUVRAGYEN_BYTES = 8,        /* bytes, in the column's character set */
    CUVRAGYEN_DECIMAL = 9,      /* bytes: the digits */
    CUVRAGYEN_DATE_OR_TIME = 10, /* bytes: 2026-11-30, 23:59:59.5 or 2026-11-30 23:59:59.5 */
    CUVRAGYEN_JSON = 11,        /* bytes: a document */
    CUVRAGYEN_JSON_UPDATES = 12 /* bytes: the updates of a document, as JSON */
};

/* The bits of a column. */
enum { CUVRAGYEN_IS_UNSIGNED = 1, CUVRAGYEN_IS_KEY = 2, CUVRAGYEN_IS_NULLABLE = 4 };

typedef struct cuvragyen_record {
    uint64_t changes;        /* how many */
    uint64_t rows;           /* rows and statements */
    uint32_t begin;          /* the position at which the transaction begins */
    uint32_t position;       /* the position after it */
    uint32_t time;           /* of its commit, in seconds since 1970 */
    uint32_t server_id;
    cuvragyen_view gtid;     /* no bytes if it has none */
    cuvragyen_view elements; /* the remaining ones */
} cuvragyen_record;

typedef struct cuvragyen_element {
    uint32_t kind;
    uint32_t table;         /* the index of its table; of CUVRAGYEN_TABLE that of the table that it describes */
    uint32_t time;          /* of rows and statements */
    uint32_t position;
    uint64_t rows;          /* the number of rows; 1 for a statement */
    cuvragyen_view content; /* the cells of the rows; of a table what cuvragyen_read_table reads */
    cuvragyen_view database; /* of a statement, and its text */
    cuvragyen_view text;
} cuvragyen_element;

typedef struct cuvragyen_table {
    cuvragyen_view database;
    cuvragyen_view name;
    uint64_t columns;       /* how many */
    cuvragyen_view content; /* the remaining ones */
} cuvragyen_table;

typedef struct cuvragyen_column {
    uint8_t type;      /* the number of its type in MySQL's protocol */
    uint8_t bits;      /* CUVRAGYEN_IS_UNSIGNED, _KEY, _NULLABLE */
    uint16_t collation; /* 0: unknown, or none */
    uint64_t members;  /* how many */
    cuvragyen_view name;
    cuvragyen_view member_texts; /* each by cuvragyen_next_text */
} cuvragyen_column;

typedef struct cuvragyen_cell {
    uint8_t kind;
    uint64_t number;
    cuvragyen_view bytes;
} cuvragyen_cell;

/* A number of size bytes, in little-endian order. */
static inline bool cuvragyen_next_number(cuvragyen_view *rest, size_t size, uint64_t *number) {
    if (rest->len < size) {
        return false;
    }
    *number = 0;
    for (size_t at = size; at > 0; at--) {
        *number = *number << 8 | rest->at[at - 1];
    }
    rest->at += size;
    rest->len -= size;
    return true;
}

static inline bool cuvragyen_next_half(cuvragyen_view *rest, uint32_t *number) {
    uint64_t found = 0;
    bool is = cuvragyen_next_number(rest, 4, &found);
    *number = (uint32_t)found;
    return is;
}

static inline bool cuvragyen_next_bytes(cuvragyen_view *rest, uint64_t len, cuvragyen_view *bytes) {
    if (rest->len < len) {
        return false;
    }
    bytes->at = rest->at;
    bytes->len = (size_t)len;
    rest->at += len;
    rest->len -= (size_t)len;
    return true;
}

/* A length and so many bytes. */
static inline bool cuvragyen_next_text(cuvragyen_view *rest, cuvragyen_view *text) {
    uint64_t len;
    return cuvragyen_next_number(rest, 8, &len) && cuvragyen_next_bytes(rest, len, text);
}

/* Reads what a record begins with. False: the bytes aren't a record of version 1. */
static inline bool cuvragyen_read_record(cuvragyen_view shown, cuvragyen_record *record) {
    uint32_t version, head;
    uint64_t len, flags;
    cuvragyen_view rest = shown;
    if (!cuvragyen_next_half(&rest, &version) || version != 1 || !cuvragyen_next_half(&rest, &head) || head < 64
        || !cuvragyen_next_number(&rest, 8, &len) || len != shown.len || !cuvragyen_next_number(&rest, 8, &record->changes)
        || !cuvragyen_next_number(&rest, 8, &record->rows) || !cuvragyen_next_half(&rest, &record->begin)
        || !cuvragyen_next_half(&rest, &record->position) || !cuvragyen_next_half(&rest, &record->time)
        || !cuvragyen_next_half(&rest, &record->server_id) || !cuvragyen_next_number(&rest, 8, &flags)
        || !cuvragyen_next_text(&rest, &record->gtid)) {
        return false;
    }
    record->elements = rest;
    return true;
}

/* Reads the next element. */
static inline bool cuvragyen_next_element(cuvragyen_view *elements, cuvragyen_element *element) {
    memset(element, 0, sizeof *element);
    if (!cuvragyen_next_half(elements, &element->kind) || !cuvragyen_next_half(elements, &element->table)
        || !cuvragyen_next_text(elements, &element->content)) {
        return false;
    }
    if (element->kind < CUVRAGYEN_INSERT || element->kind > CUVRAGYEN_STATEMENT) {
        return true;
    }
    cuvragyen_view *rest = &element->content;
    if (!cuvragyen_next_half(rest, &element->time) || !cuvragyen_next_half(rest, &element->position)) {
        return false;
    }
    if (element->kind < CUVRAGYEN_STATEMENT) {
        return cuvragyen_next_number(rest, 8, &element->rows);
    }
    element->rows = 1;
    return cuvragyen_next_text(rest, &element->database) && cuvragyen_next_text(rest, &element->text);
}

/* Reads the table that an element of the kind CUVRAGYEN_TABLE describes. */
static inline bool cuvragyen_read_table(cuvragyen_view content, cuvragyen_table *table) {
    cuvragyen_view rest = content;
    if (!cuvragyen_next_text(&rest, &table->database) || !cuvragyen_next_text(&rest, &table->name)
        || !cuvragyen_next_number(&rest, 8, &table->columns)) {
        return false;
    }
    table->content = rest;
    return true;
}

/* Reads the next column of a table. */
static inline bool cuvragyen_next_column(cuvragyen_table *table, cuvragyen_column *column) {
    uint64_t type, bits, collation;
    cuvragyen_view *rest = &table->content, member;
    if (!cuvragyen_next_number(rest, 1, &type) || !cuvragyen_next_number(rest, 1, &bits) || !cuvragyen_next_number(rest, 2, &collation)
        || !cuvragyen_next_number(rest, 8, &column->members) || !cuvragyen_next_text(rest, &column->name)) {
        return false;
    }
    column->type = (uint8_t)type;
    column->bits = (uint8_t)bits;
    column->collation = (uint16_t)collation;
    column->member_texts = *rest;
    for (uint64_t left = column->members; left > 0; left--) {
        if (!cuvragyen_next_text(rest, &member)) {
            return false;
        }
    }
    column->member_texts.len -= rest->len;
    return true;
}

/* Reads the next cell of rows: of each row and image one for each column of the table. */
static inline bool cuvragyen_next_cell(cuvragyen_view *rows, cuvragyen_cell *cell) {
    uint64_t kind;
    cell->number = 0;
    cell->bytes.at = rows->at;
    cell->bytes.len = 0;
    if (!cuvragyen_next_number(rows, 1, &kind)) {
        return false;
    }
    cell->kind = (uint8_t)kind;
    if (kind < CUVRAGYEN_SIGNED) {
        return true;
    }
    return cuvragyen_next_number(rows, 8, &cell->number) && (kind < CUVRAGYEN_BYTES || cuvragyen_next_bytes(rows, cell->number, &cell->bytes));
}

#ifdef __cplusplus
}
#endif

#endif
