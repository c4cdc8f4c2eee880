/* For libFuzzer: whatever bytes arrive, and in whatever pieces, libcuvragyen finds the same transactions and the same end. */
#include <cuvragyen.h>
#include <stdlib.h>
#include <string.h>

static const char *const OPTIONS[] = {"", "transactions=1\nwith=all", "table=shop.*\nmax-transaction=100000"};

struct found {
    uint64_t sum, transactions;
    cuvragyen_end end;
};

static struct found read_log(const uint8_t *bytes, size_t len, size_t piece_len, const char *options) {
    struct found found = {0};
    cuvragyen log = CUVRAGYEN_CLOSED;
    if (cuvragyen_open(&log, options, strlen(options)) != CUVRAGYEN_OK) {
        abort();
    }
    for (size_t at = 0; at < len; at += piece_len) {
        size_t taken = len - at < piece_len ? len - at : piece_len;
        if (cuvragyen_push(&log, bytes + at, taken) != CUVRAGYEN_OK) {
            break;
        }
        while (cuvragyen_next(&log) == CUVRAGYEN_TRANSACTION) {
            cuvragyen_view shown;
            if (cuvragyen_show(&log, &shown) != CUVRAGYEN_TRANSACTION) {
                abort();
            }
            found.transactions++;
            found.sum = found.sum * 31 + cuvragyen_crc32(shown.at, shown.len);
        }
    }
    cuvragyen_stop(&log, &found.end);
    cuvragyen_close(&log);
    return found;
}

int LLVMFuzzerTestOneInput(const uint8_t *bytes, size_t len) {
    if (len < 2) {
        return 0;
    }
    const char *options = OPTIONS[bytes[0] % 3];
    size_t piece_len = 1 + bytes[1];
    struct found whole = read_log(bytes + 2, len - 2, len, options), pieces = read_log(bytes + 2, len - 2, piece_len, options);
    if (whole.sum != pieces.sum || whole.transactions != pieces.transactions || whole.end.verdict != pieces.end.verdict ||
        whole.end.offset != pieces.end.offset || whole.end.last_commit != pieces.end.last_commit) {
        abort();
    }
    return 0;
}
