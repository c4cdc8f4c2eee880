/* count FILE..: counts the transactions of logs and says how each log ended. */
#include <cuvragyen.h>
#include <stdio.h>

static int count(const char *path) {
    FILE *file = fopen(path, "rb");
    cuvragyen log = CUVRAGYEN_CLOSED;
    if (!file || cuvragyen_open(&log, "", 0) != CUVRAGYEN_OK) {
        fprintf(stderr, "count: %s can't be opened\n", path);
        return 3;
    }
    static uint8_t piece[1 << 17];
    unsigned long transactions = 0;
    size_t len;
    while ((len = fread(piece, 1, sizeof piece, file)) > 0 && cuvragyen_push(&log, piece, len) == CUVRAGYEN_OK) {
        while (cuvragyen_next(&log) == CUVRAGYEN_TRANSACTION) {
            transactions++;
        }
    }
    cuvragyen_end end;
    cuvragyen_view name;
    cuvragyen_stop(&log, &end);
    cuvragyen_verdict_name(end.verdict, &name);
    printf("%s: %lu transactions, %.*s at %llu, the last commit ends at %u\n", path, transactions, (int)name.len, (const char *)name.at,
           (unsigned long long)end.offset, end.last_commit);
    cuvragyen_close(&log);
    fclose(file);
    return end.verdict == CUVRAGYEN_END && !end.is_cut && !end.is_open ? 0 : 1;
}

int main(int argc, char **argv) {
    int status = 0;
    for (int at = 1; at < argc; at++) {
        int result = count(argv[at]);
        status = result > status ? result : status;
    }
    return status;
}
