/* Tries libcuvragyen from C, for checks/programs/library.

   library lines FILE SEED OPTIONS SCHEMA: prints JSON lines or records of a log that is pushed in pieces of random lengths, or of one byte if SEED is 1;
   on standard error how the log ended, and before it for each transaction what the commit's header has.
   library misuse FILE: makes calls that a careful program doesn't.
   library beside FILE OTHER: reads two logs by turns, and each finds what it finds alone.
   library threads FILE: 8 threads read the log, and one handle goes from thread to thread; prints nothing if all find the same.
   library schema FILE OPTIONS SCHEMA: opens a log, and prints the number that this returns, and the line of the schema.
   library refused FILE OPTIONS SCHEMA: each allocation fails in turn; prints how many runs there were. A log then shows
   no other transactions, and ends by Memory, or at an event that others should have replaced, or all is the same in another way. */
#define _GNU_SOURCE
#include <cuvragyen.h>
#include <pthread.h>
#include <stdio.h>
#include <stdlib.h>
#include <string.h>

struct bytes {
    uint8_t *at;
    size_t len;
};

static void fail(const char *what) {
    fprintf(stderr, "library: %s\n", what);
    exit(1);
}

static void expect(int is_met, const char *what) {
    if (!is_met) {
        fail(what);
    }
}

/* Allocations that fail, and blocks that aren't freed, of this thread. */
static __thread long until_refused, live, calls;

static int is_refused(void) {
    calls++;
    return until_refused > 0 && --until_refused == 0;
}

void *__real_malloc(size_t size);
void *__real_realloc(void *block, size_t size);
void __real_free(void *block);

void *__wrap_malloc(size_t size) {
    void *block = is_refused() ? NULL : __real_malloc(size);
    live += block != NULL;
    return block;
}

void *__wrap_realloc(void *old, size_t size) {
    void *block = is_refused() ? NULL : __real_realloc(old, size);
    live += block && !old;
    return block;
}

void __wrap_free(void *block) {
    live -= block != NULL;
    __real_free(block);
}

static struct bytes read_all(const char *path) {
    FILE *file = fopen(path, "rb");
    expect(file != NULL, "the log can't be opened");
    fseek(file, 0, SEEK_END);
    struct bytes all = {NULL, (size_t)ftell(file)};
    rewind(file);
    all.at = __real_malloc(all.len + 1);
    expect(fread(all.at, 1, all.len, file) == all.len, "the log can't be read");
    fclose(file);
    return all;
}

/* A checksum of all transactions, and how the log ended. */
struct result {
    uint64_t sum, transactions, verdict;
};

/* The checksum of each number of the newest log's transactions. */
enum { MAX_SUMS = 100000 };
static uint64_t sums[MAX_SUMS];
static int keeps_sums;

static size_t piece_len(unsigned *seed, size_t left) {
    size_t len = *seed == 1 ? 1 : (size_t)rand_r(seed) % 3000;
    return len < left ? len : left;
}

static void take_all(cuvragyen *log, struct result *found, FILE *out) {
    while (cuvragyen_next(log) == CUVRAGYEN_TRANSACTION) {
        cuvragyen_view shown;
        uint32_t result = cuvragyen_show(log, &shown);
        if (result != CUVRAGYEN_TRANSACTION) {
            return;
        }
        found->transactions++;
        found->sum = found->sum * 31 + cuvragyen_crc32(shown.at, shown.len);
        if (keeps_sums && found->transactions < MAX_SUMS) {
            sums[found->transactions] = found->sum;
        }
        if (out) {
            cuvragyen_header commit;
            expect(cuvragyen_commit(log, &commit) == CUVRAGYEN_TRANSACTION, "a transaction without a commit");
            fwrite(shown.at, 1, shown.len, out);
            fprintf(stderr, "%u %u %u\n", commit.time, commit.server_id, commit.position);
        }
    }
}

/* Prints how a log ended, as binlog-changes check --json does. */
static void print_end(cuvragyen_end end) {
    cuvragyen_view name;
    cuvragyen_verdict_name(end.verdict, &name);
    fprintf(stderr, "{\"verdict\": \"%.*s\", \"offset\": %llu, \"remaining\": %llu, \"is_open\": %d, \"is_cut\": %d, \"last_commit\": ", (int)name.len,
            (const char *)name.at, (unsigned long long)end.offset, (unsigned long long)end.remaining, end.is_open, end.is_cut);
    fprintf(stderr, end.has_last_commit ? "%u}\n" : "null}\n", end.last_commit);
}

/* The schema of logs that are read. */
static const char *schema = "";

/* Reads a log in pieces. Each piece is freed before the next call, so that a checker sees a use of it. */
static struct result read_log(struct bytes all, unsigned seed, const char *options, FILE *out) {
    struct result found = {0, 0, 0};
    cuvragyen log = CUVRAGYEN_CLOSED;
    uint64_t line = 0;
    uint32_t opened = cuvragyen_open_with_schema(&log, options, strlen(options), (const uint8_t *)schema, strlen(schema), &line);
    if (opened != CUVRAGYEN_OK) {
        found.verdict = opened;
        return found;
    }
    size_t at = 0;
    while (at < all.len) {
        size_t len = piece_len(&seed, all.len - at);
        uint8_t *piece = __real_malloc(len + 1);
        memcpy(piece, all.at + at, len);
        uint32_t pushed = cuvragyen_push(&log, piece, len);
        __real_free(piece);
        if (pushed != CUVRAGYEN_OK) {
            break;
        }
        at += len;
        take_all(&log, &found, out);
    }
    cuvragyen_end end;
    expect(cuvragyen_stop(&log, &end) == CUVRAGYEN_OK, "an open log can't be stopped");
    found.verdict = end.verdict;
    cuvragyen_close(&log);
    if (out) {
        print_end(end);
    }
    return found;
}

/* Calls on a handle that is closed. */
static void while_closed(cuvragyen *log) {
    uint8_t byte[1] = {0xfe};
    cuvragyen_view view = {byte, 7};
    cuvragyen_header header = {1, 2, 3};
    cuvragyen_end end = {.offset = 9};
    expect(cuvragyen_push(log, byte, 1) == CUVRAGYEN_CLOSED_HANDLE, "push on a closed handle");
    expect(cuvragyen_next(log) == CUVRAGYEN_CLOSED_HANDLE, "next on a closed handle");
    expect(cuvragyen_show(log, &view) == CUVRAGYEN_CLOSED_HANDLE && view.at == byte && view.len == 7, "show on a closed handle");
    expect(cuvragyen_commit(log, &header) == CUVRAGYEN_CLOSED_HANDLE && header.time == 1, "commit on a closed handle");
    expect(cuvragyen_stop(log, &end) == CUVRAGYEN_CLOSED_HANDLE && end.offset == 9, "stop on a closed handle");
    cuvragyen_close(log);
    cuvragyen_close(log);
}

/* What an option's text gives. */
static const struct {
    const char *text;
    uint32_t result;
} OPTIONS[] = {
    {"", CUVRAGYEN_OK},
    {"\n\n", CUVRAGYEN_OK},
    {"file=", CUVRAGYEN_OK},
    {"file=a=b", CUVRAGYEN_OK},
    {"transactions=1\ntransactions=0\n", CUVRAGYEN_OK},
    {"table=a.b\ntable=c.*\ndatabase=d\ndatabase=e", CUVRAGYEN_OK},
    {"after=4294967295\nup-to=0", CUVRAGYEN_OK},
    {"from-time=18446744073709551615\nto-time=0", CUVRAGYEN_OK},
    {"character-set=latin1", CUVRAGYEN_OK},
    {"max-transaction=0", CUVRAGYEN_OK},
    {"colour=red", CUVRAGYEN_BAD_OPTION},
    {"file", CUVRAGYEN_OK},
    {"=", CUVRAGYEN_BAD_OPTION},
    {"FILE=a", CUVRAGYEN_BAD_OPTION},
    {" file=a", CUVRAGYEN_BAD_OPTION},
    {"file=a\nfile", CUVRAGYEN_OK},
    {"transactions", CUVRAGYEN_BAD_VALUE},
    {"transactions=yes", CUVRAGYEN_BAD_VALUE},
    {"transactions=1 ", CUVRAGYEN_BAD_VALUE},
    {"numbers-as-strings=2", CUVRAGYEN_BAD_VALUE},
    {"records=1\nrecords=0\nrecords=1", CUVRAGYEN_OK},
    {"records=2", CUVRAGYEN_BAD_VALUE},
    {"records", CUVRAGYEN_BAD_VALUE},
    {"with=", CUVRAGYEN_BAD_VALUE},
    {"with=begin,xid", CUVRAGYEN_BAD_VALUE},
    {"character-set=latin99", CUVRAGYEN_BAD_VALUE},
    {"character-set=\xff", CUVRAGYEN_BAD_VALUE},
    {"database=", CUVRAGYEN_BAD_VALUE},
    {"database=sho*", CUVRAGYEN_BAD_VALUE},
    {"table=orders", CUVRAGYEN_BAD_VALUE},
    {"table=.orders", CUVRAGYEN_BAD_VALUE},
    {"table=shop.", CUVRAGYEN_BAD_VALUE},
    {"exclude-table=orders", CUVRAGYEN_BAD_VALUE},
    {"after=-1", CUVRAGYEN_BAD_VALUE},
    {"after=4294967296", CUVRAGYEN_BAD_VALUE},
    {"up-to=", CUVRAGYEN_BAD_VALUE},
    {"from-time=2026-11-27", CUVRAGYEN_BAD_VALUE},
    {"to-time=18446744073709551616", CUVRAGYEN_BAD_VALUE},
    {"max-transaction=1G", CUVRAGYEN_BAD_VALUE},
};

/* Opens a log by each text of options. One that isn't taken leaves the handle closed, and a log can still be opened. */
static void with_options(void) {
    for (size_t at = 0; at < sizeof OPTIONS / sizeof *OPTIONS; at++) {
        cuvragyen log = CUVRAGYEN_CLOSED;
        uint32_t opened = cuvragyen_open(&log, OPTIONS[at].text, strlen(OPTIONS[at].text));
        if (opened != OPTIONS[at].result) {
            fprintf(stderr, "library: the options %s: %u\n", OPTIONS[at].text, opened);
            exit(1);
        }
        expect((log.log != NULL) == (opened == CUVRAGYEN_OK), "a handle that isn't open after wrong options");
        cuvragyen_close(&log);
    }
}

#define SCHEMA_HEADER "database\ttable\tposition\tcolumn\ttype\tcollation\tkey_position\tkey_prefix\n"

/* What a schema's text gives, and the line of its fault. */
static const struct {
    const char *text;
    uint32_t result;
    uint64_t line;
} SCHEMAS[] = {
    {"", CUVRAGYEN_OK, 7},
    {SCHEMA_HEADER "d\tt\t1\tid\tint\tNULL\t1\tNULL\n", CUVRAGYEN_OK, 7},
    {"text", CUVRAGYEN_BAD_SCHEMA, 1},
    {"\n", CUVRAGYEN_BAD_SCHEMA, 1},
    {SCHEMA_HEADER, CUVRAGYEN_BAD_SCHEMA, 2},
    {SCHEMA_HEADER "d\tt\t1\tid\tint\tNULL\t1\tNULL\nd\tt\t2\tb\n", CUVRAGYEN_BAD_SCHEMA, 3},
    {SCHEMA_HEADER "d\tt\t2\tid\tint\tNULL\t1\tNULL\n", CUVRAGYEN_BAD_SCHEMA, 2},
    {SCHEMA_HEADER "d\tt\t1\tid\tenum('a'\tNULL\t1\tNULL\n", CUVRAGYEN_BAD_SCHEMA, 2},
};

/* Opens a log by each text of a schema. One that can't be read leaves the handle closed, and names its line. */
static void with_schemas(void) {
    for (size_t at = 0; at < sizeof SCHEMAS / sizeof *SCHEMAS; at++) {
        cuvragyen log = CUVRAGYEN_CLOSED;
        uint64_t line = 7;
        const uint8_t *text = (const uint8_t *)SCHEMAS[at].text;
        uint32_t opened = cuvragyen_open_with_schema(&log, "", 0, text, strlen(SCHEMAS[at].text), &line);
        if (opened != SCHEMAS[at].result || line != SCHEMAS[at].line) {
            fprintf(stderr, "library: the schema %zu: %u in line %llu\n", at, opened, (unsigned long long)line);
            exit(1);
        }
        expect((log.log != NULL) == (opened == CUVRAGYEN_OK), "a handle that isn't open after a wrong schema");
        if (opened == CUVRAGYEN_OK) {
            expect(cuvragyen_open_with_schema(&log, "", 0, text, 0, &line) == CUVRAGYEN_OPEN_HANDLE && line == 7, "an open handle is opened");
        }
        cuvragyen_close(&log);
        expect(cuvragyen_open_with_schema(&log, "colour=red", 10, (const uint8_t *)"text", 4, &line) == CUVRAGYEN_BAD_OPTION, "an option first");
    }
}

/* Each number has a name exactly if a verdict has it. */
static void with_names(void) {
    for (uint32_t number = 0; number < 300; number++) {
        cuvragyen_view name = {NULL, 99};
        cuvragyen_verdict_name(number, &name);
        expect((name.len > 0) == (number >= CUVRAGYEN_END && number <= CUVRAGYEN_READ + 1), "the name of a number");
    }
}

static void misuse(struct bytes all) {
    cuvragyen log = CUVRAGYEN_CLOSED;
    cuvragyen_view view = {NULL, 0};
    cuvragyen_header header = {1, 2, 3};
    cuvragyen_end end;
    while_closed(&log);
    with_options();
    with_schemas();
    with_names();
    expect(cuvragyen_open(&log, "", 0) == CUVRAGYEN_OK, "no options");
    expect(cuvragyen_open(&log, "", 0) == CUVRAGYEN_OPEN_HANDLE, "an open handle is opened");
    expect(cuvragyen_next(&log) == CUVRAGYEN_OK, "next before the first piece");
    expect(cuvragyen_show(&log, &view) == CUVRAGYEN_OK && view.len == 0, "show without a transaction");
    expect(cuvragyen_commit(&log, &header) == CUVRAGYEN_OK && header.time == 1, "commit without a transaction");
    expect(cuvragyen_push(&log, all.at, 0) == CUVRAGYEN_OK, "no bytes");
    expect(cuvragyen_push(&log, (const uint8_t *)"text", 4) == CUVRAGYEN_MARK, "bytes that are no log");
    expect(cuvragyen_push(&log, all.at, all.len) == CUVRAGYEN_MARK && cuvragyen_next(&log) == CUVRAGYEN_MARK, "calls after a fault");
    expect(cuvragyen_stop(&log, &end) == CUVRAGYEN_OK && end.verdict == CUVRAGYEN_MARK, "the stop after a fault");
    cuvragyen moved = log;
    memset(&log, 0, sizeof log);
    expect(cuvragyen_next(&moved) == CUVRAGYEN_MARK, "a handle that was moved");
    cuvragyen_close(&moved);
    while_closed(&moved);
    expect(cuvragyen_open(&moved, "", 0) == CUVRAGYEN_OK, "a handle is opened again");
    expect(cuvragyen_push(&moved, all.at, all.len) == CUVRAGYEN_OK, "the whole log");
    expect(cuvragyen_stop(&moved, &end) == CUVRAGYEN_OK, "the stop before the transactions");
    expect(cuvragyen_push(&moved, all.at, all.len) == CUVRAGYEN_END && cuvragyen_next(&moved) == CUVRAGYEN_END, "calls after the stop");
    cuvragyen_close(&moved);
}

/* Two logs that are read by turns, with other options. */
static void beside(struct bytes first, struct bytes second) {
    static const char *const options[2] = {"records=1", "transactions=1\nwith=all"};
    struct bytes all[2] = {first, second};
    struct result wanted[2], found[2] = {{0, 0, 0}, {0, 0, 0}};
    cuvragyen logs[2] = {CUVRAGYEN_CLOSED, CUVRAGYEN_CLOSED};
    for (int which = 0; which < 2; which++) {
        wanted[which] = read_log(all[which], 2, options[which], NULL);
        expect(cuvragyen_open(&logs[which], options[which], strlen(options[which])) == CUVRAGYEN_OK, "no log beside another");
    }
    for (size_t at = 0; at < first.len || at < second.len; at += 100) {
        for (int which = 0; which < 2; which++) {
            size_t left = at < all[which].len ? all[which].len - at : 0;
            cuvragyen_push(&logs[which], all[which].at + (left ? at : 0), left < 100 ? left : 100);
            take_all(&logs[which], &found[which], NULL);
        }
    }
    for (int which = 0; which < 2; which++) {
        cuvragyen_end end;
        cuvragyen_stop(&logs[which], &end);
        found[which].verdict = end.verdict;
        cuvragyen_close(&logs[which]);
        expect(!memcmp(&found[which], &wanted[which], sizeof found[which]), "a log beside another gives something else");
    }
}

struct shared {
    struct bytes all;
    struct result wanted;
    cuvragyen *log;
    struct result *found;
    size_t begin, end;
};

static void *in_thread(void *given) {
    struct shared *shared = given;
    for (unsigned seed = 2; seed < 6; seed++) {
        struct result found = read_log(shared->all, seed, "", NULL);
        expect(!memcmp(&found, &shared->wanted, sizeof found), "a thread reads something else");
    }
    return NULL;
}

static void *a_part(void *given) {
    struct shared *shared = given;
    expect(cuvragyen_push(shared->log, shared->all.at + shared->begin, shared->end - shared->begin) == CUVRAGYEN_OK, "a part");
    take_all(shared->log, shared->found, NULL);
    return NULL;
}

static void threads(struct bytes all) {
    struct shared shared = {.all = all, .wanted = read_log(all, 2, "", NULL)};
    pthread_t ids[8];
    for (int at = 0; at < 8; at++) {
        pthread_create(&ids[at], NULL, in_thread, &shared);
    }
    for (int at = 0; at < 8; at++) {
        pthread_join(ids[at], NULL);
    }
    cuvragyen log = CUVRAGYEN_CLOSED;
    struct result found = {0, 0, shared.wanted.verdict};
    expect(cuvragyen_open(&log, "", 0) == CUVRAGYEN_OK, "no log");
    for (size_t part = 0; part < 8; part++) {
        struct shared passed = {.all = all, .log = &log, .found = &found, .begin = all.len * part / 8, .end = all.len * (part + 1) / 8};
        pthread_t id;
        pthread_create(&id, NULL, a_part, &passed);
        pthread_join(id, NULL);
    }
    cuvragyen_close(&log);
    expect(!memcmp(&found, &shared.wanted, sizeof found), "a handle that goes from thread to thread reads something else");
}

static void refused(struct bytes all, const char *options) {
    long whole_calls = 0, runs = 0;
    struct result whole = {0, 0, 0};
    for (long number = 0; number <= whole_calls; number++) {
        keeps_sums = number == 0;
        until_refused = number;
        live = calls = 0;
        struct result found = read_log(all, 2, options, NULL);
        until_refused = 0;
        expect(live == 0, "a block isn't freed");
        if (number == 0) {
            whole = found;
            whole_calls = calls;
        } else {
            expect(found.verdict != CUVRAGYEN_END || !memcmp(&found, &whole, sizeof found), "an allocation failed, and the log ends otherwise");
            expect(found.transactions <= whole.transactions && found.sum == sums[found.transactions], "an allocation failed, and a transaction is another");
        }
        runs++;
    }
    printf("%ld\n", runs);
}

int main(int argc, char **argv) {
    expect(argc > 2, "library lines | misuse | beside | threads | schema | refused FILE ..");
    struct bytes all = read_all(argv[2]);
    if (!strcmp(argv[1], "lines")) {
        schema = argc > 5 ? argv[5] : "";
        read_log(all, strtoul(argv[3], NULL, 10), argv[4], stdout);
    } else if (!strcmp(argv[1], "misuse")) {
        misuse(all);
    } else if (!strcmp(argv[1], "beside")) {
        struct bytes other = read_all(argv[3]);
        beside(all, other);
        __real_free(other.at);
    } else if (!strcmp(argv[1], "schema")) {
        cuvragyen log = CUVRAGYEN_CLOSED;
        uint64_t line = 0;
        uint32_t opened = cuvragyen_open_with_schema(&log, argv[3], strlen(argv[3]), (const uint8_t *)argv[4], strlen(argv[4]), &line);
        printf("%u %llu\n", opened, (unsigned long long)line);
        cuvragyen_close(&log);
    } else if (!strcmp(argv[1], "threads")) {
        threads(all);
    } else {
        schema = argc > 4 ? argv[4] : "";
        refused(all, argc > 3 ? argv[3] : "");
    }
    __real_free(all.at);
    return 0;
}
