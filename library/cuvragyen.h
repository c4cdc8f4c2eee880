/* cuvragyen.h: the committed changes of MySQL's binary logs, for C and every language that calls C.

   A log arrives in pieces of any lengths, and each transaction can be taken once its commit has arrived, as JSON lines:

       cuvragyen log = CUVRAGYEN_CLOSED;
       cuvragyen_view lines;
       if (cuvragyen_open(&log, "file=binlog.000001\ntable=shop.orders", 38) != CUVRAGYEN_OK) ...
       while ((len = fread(piece, 1, sizeof piece, file)) > 0 && cuvragyen_push(&log, piece, len) == CUVRAGYEN_OK)
           while (cuvragyen_next(&log) == CUVRAGYEN_TRANSACTION)
               if (cuvragyen_show(&log, &lines) == CUVRAGYEN_TRANSACTION)
                   fwrite(lines.at, 1, lines.len, stdout);
       cuvragyen_stop(&log, &stop);
       cuvragyen_close(&log);

   With the option records=1 cuvragyen_show gives binary records in place of lines: cuvragyen_record.h reads them.

   docs/guarantees/PROVED.md says what is proved of these calls, and what is trusted.

   Rules for all calls:
   - A pointer is valid and isn't null, also where its length is 0. A length is below 2^63. No two arguments overlap.
   - A handle is used by one call at a time. It may go from thread to thread, if the threads are synchronized in between. Different
     handles are independent: threads may use them at the same time.
   - No call writes to memory other than its handle's and its arguments', calls back, or prints.
   - Where memory runs out while a compressed event or transaction, or an XA transaction, is read, the verdict is that of its event as it is,
     such as CUVRAGYEN_UNSHOWN; else it is CUVRAGYEN_MEMORY. No transaction is shown otherwise than with enough memory.
   - A call on a closed handle returns CUVRAGYEN_CLOSED_HANDLE and changes nothing. After a fault each call returns it again.

   Link with -lcuvragyen. Linux on x86-64; a processor from 2009 on (x86-64-v2). */
#ifndef CUVRAGYEN_H
#define CUVRAGYEN_H

#include <stdbool.h>
#include <stddef.h>
#include <stdint.h>

#ifdef __cplusplus
extern "C" {
#endif

/* The version of this header. */
#define CUVRAGYEN_VERSION "0.1.0"

/* A log. Its fields are the library's. A closed handle is CUVRAGYEN_CLOSED; nothing has to be freed then.

   A handle can be moved in memory between calls. It must not be copied to be used twice: if two copies of an open handle are closed,
   memory is freed twice, as by two calls of free(). */
typedef struct cuvragyen {
    uint8_t *log;
    uint8_t *state;
    uint8_t *options;
} cuvragyen;

#define CUVRAGYEN_CLOSED {0, 0, 0}

/* Bytes that the library owns. */
typedef struct cuvragyen_view {
    const uint8_t *at;
    size_t len;
} cuvragyen_view;

/* What calls return. From CUVRAGYEN_END on it is a verdict: why the reading of a log ended. */
enum {
    CUVRAGYEN_OK = 0,             /* done; of cuvragyen_next: more bytes are wanted; of cuvragyen_show and _commit: there is no transaction */
    CUVRAGYEN_TRANSACTION = 1,    /* there is a transaction */
    CUVRAGYEN_CLOSED_HANDLE = 2,  /* the handle is closed */
    CUVRAGYEN_BAD_OPTION = 3,     /* an option's name is unknown */
    CUVRAGYEN_BAD_VALUE = 4,      /* an option's value is wrong */
    CUVRAGYEN_OPEN_HANDLE = 5,    /* the handle is open */
    CUVRAGYEN_BAD_SCHEMA = 6,     /* the schema can't be read */
    CUVRAGYEN_END = 100,          /* the log ended after or within an event */
    CUVRAGYEN_MARK = 102,         /* it doesn't begin with the magic number fe 62 69 6e */
    CUVRAGYEN_FRAME = 107,        /* an event is too short */
    CUVRAGYEN_ALGORITHM = 108,    /* the checksum algorithm is unknown */
    CUVRAGYEN_CHECKSUM = 109,     /* a checksum is wrong */
    CUVRAGYEN_SIZE = 110,         /* an event is longer than 4,294,967,276 bytes */
    CUVRAGYEN_BODY = 111,         /* an event's body isn't in its type's format */
    CUVRAGYEN_NO_TABLE_MAP = 112, /* rows have no table map */
    CUVRAGYEN_ROW = 113,          /* a row can't be read */
    CUVRAGYEN_OUTSIDE = 114,      /* a commit, a rollback or rows outside a transaction */
    CUVRAGYEN_INSIDE = 115,       /* a begin, a GTID or a rotate within a transaction */
    CUVRAGYEN_UNSHOWN = 116,      /* an event that isn't read: of an encrypted log; or a compressed transaction that is damaged, or longer than
                                     max-transaction */
    CUVRAGYEN_UNKNOWN_KIND = 117, /* an event of an unknown type that may not be ignored */
    CUVRAGYEN_MEMORY = 118,       /* out of memory */
    CUVRAGYEN_READ = 119          /* 2^63 - 1 pieces were read */
};

/* The version of the library, as CUVRAGYEN_VERSION. */
const char *cuvragyen_version(void);

/* Opens a log of which nothing has arrived. The handle must be closed.

   options are len bytes: a line for each option, NAME=VALUE, as the program binlog-changes has them. The last line needs no line feed.
       file=NAME                 the name of the log, for the member "file" of JSON lines
       transactions=1            a JSON line for each transaction, and not for each row
       records=1                 a binary record for each transaction, and no lines: cuvragyen_record.h reads it
       with=NAME                 a member more: begin, ts_ms, xid, thread_id, query, row, all; several lines
       numbers-as-strings=1      the numbers of BIGINT columns as strings
       character-set=NAME        the character set of text whose character set isn't in the log
       database=NAME             only changes of this database; several lines
       table=DATABASE.TABLE      only rows of this table, * stands for any characters; several lines
       exclude-table=DATABASE.TABLE
       after=POSITION            only transactions that end after this position
       up-to=POSITION            only transactions that end at this position or before it
       from-time=SECONDS         only transactions that were committed at this time or later, in seconds since 1970
       to-time=SECONDS           only transactions that were committed before it
       max-transaction=BYTES     the maximum length of a compressed transaction's events: 1 GiB, if it isn't given
   The bytes of options may be freed after the call.

   CUVRAGYEN_OK; or CUVRAGYEN_OPEN_HANDLE, _BAD_OPTION, _BAD_VALUE or _MEMORY, and the handle is unchanged. */
uint32_t cuvragyen_open(cuvragyen *log, const char *options, size_t len);

/* The same, with a schema that completes table maps: the names, signs, character sets, keys and members that a log without
   binlog_row_metadata=FULL hasn't. schema are schema_len bytes, the text of a file as binlog-changes --schema takes it; no bytes: no schema.
   Its tables are those from the first event of the log on. The bytes may be freed after the call.

   As cuvragyen_open; or CUVRAGYEN_BAD_SCHEMA, the handle is unchanged, and *line is the number of the line, from 1 on, that can't be
   read. Without this error *line is unchanged. */
uint32_t cuvragyen_open_with_schema(cuvragyen *log, const char *options, size_t len, const uint8_t *schema, size_t schema_len, uint64_t *line);

/* Keeps the next len bytes of the log, a piece of any length. They are copied: the memory is the caller's again after the call. Take the
   transactions that are complete by cuvragyen_next before the next piece, or the pieces that wait take memory.

   CUVRAGYEN_OK; CUVRAGYEN_CLOSED_HANDLE; or the verdict of a log that ended, whose pieces are ignored. */
uint32_t cuvragyen_push(cuvragyen *log, const uint8_t *bytes, size_t len);

/* Goes on to the next transaction that the options select. The transaction before it is gone, with all views of it.

   CUVRAGYEN_TRANSACTION; CUVRAGYEN_OK if none is complete yet: push the next piece, or stop; CUVRAGYEN_CLOSED_HANDLE; or the verdict of
   the log's first fault, now and at each later call. */
uint32_t cuvragyen_next(cuvragyen *log);

/* Makes the JSON lines of the newest transaction, or its binary record, and says where they are: bytes that are valid until the next call that gets the
   handle, but for cuvragyen_commit.

   CUVRAGYEN_TRANSACTION; CUVRAGYEN_OK if there is no transaction: of no bytes; CUVRAGYEN_CLOSED_HANDLE, and the view is unchanged; or
   CUVRAGYEN_MEMORY, which ends the log. */
uint32_t cuvragyen_show(cuvragyen *log, cuvragyen_view *shown);

/* The event that committed a transaction. */
typedef struct cuvragyen_header {
    uint32_t time;      /* when it was written, in seconds since 1970 */
    uint32_t server_id; /* by which server */
    uint32_t position;  /* the position in the log after it: resume here */
} cuvragyen_header;

/* Says which event committed the newest transaction.

   CUVRAGYEN_TRANSACTION; or CUVRAGYEN_OK if there is no transaction or CUVRAGYEN_CLOSED_HANDLE, and the header is unchanged. */
uint32_t cuvragyen_commit(cuvragyen *log, cuvragyen_header *commit);

/* How the reading of a log ended. */
typedef struct cuvragyen_end {
    uint64_t offset;      /* of the event that stopped it, or of the bytes after the last event */
    uint64_t remaining;   /* how many bytes after the last event that was taken were pushed */
    uint32_t verdict;     /* CUVRAGYEN_END, or the fault */
    uint32_t last_commit; /* the position after the last transaction that was committed */
    uint32_t event_type;  /* the type and the size of the event that stopped it */
    uint32_t event_size;
    uint32_t newest_type; /* the type of the last event that was taken; a log that its server closed ends with 4 (rotate) or 3 (stop) */
    bool has_last_commit;
    bool has_event;       /* whether event_type and event_size are there */
    bool has_newest_type;
    bool is_open;         /* whether a transaction was open */
    bool is_cut;          /* whether the log ends within an event */
} cuvragyen_end;

/* Ends a log, and says how it ended: by CUVRAGYEN_END if it has no fault. From then on pieces are ignored. Take the transactions of
   the last piece by cuvragyen_next before: those that weren't taken are among the bytes that remain.

   CUVRAGYEN_OK; or CUVRAGYEN_CLOSED_HANDLE, and end is unchanged. */
uint32_t cuvragyen_stop(cuvragyen *log, cuvragyen_end *end);

/* Closes a log, and frees what it has. A closed handle stays closed. */
void cuvragyen_close(cuvragyen *log);

/* The name of a verdict, such as Checksum, as len bytes without a zero that are valid for good; no bytes for another number. */
void cuvragyen_verdict_name(uint32_t verdict, cuvragyen_view *name);

/* The CRC-32 of bytes, with which MySQL checksums the events of a log. */
uint32_t cuvragyen_crc32(const uint8_t *bytes, size_t len);

/* Writes the packet that asks a server for the events of the log of this name from a position on, for a replica with this id:
   COM_BINLOG_DUMP. Returns its length. 0: the name is longer than 511 bytes, there is no room for the packet, or no memory. A packet has 15 bytes more than the name. */
size_t cuvragyen_request(uint32_t position, uint32_t server_id, const uint8_t *name, size_t name_len, uint8_t *packet, size_t room);

/* How much of truncated output is complete transactions. */
typedef struct cuvragyen_kept {
    uint64_t len;      /* the bytes of the complete transactions */
    uint64_t file_len; /* of the name of the log of the last one, as far as there was room */
    uint32_t position; /* the position after the last one: resume here */
    bool has_position; /* whether there is a transaction */
} cuvragyen_kept;

/* Finds the complete transactions of JSON lines that may be truncated anywhere, and where to resume; writes the name of the log.

   CUVRAGYEN_OK; CUVRAGYEN_MEMORY; or CUVRAGYEN_BAD_VALUE if the last line of a transaction isn't one of this library. After these
   kept and the name are unchanged. */
uint32_t cuvragyen_kept_json(const uint8_t *lines, size_t len, cuvragyen_kept *kept, uint8_t *file, size_t room);

/* The same for the text of the program binlog-feed, which has no names of logs. */
void cuvragyen_kept_text(const uint8_t *text, size_t len, cuvragyen_kept *kept);

#ifdef __cplusplus
}
#endif

#endif
