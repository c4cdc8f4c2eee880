/* each_record: opens a log, and gives the binary record of each of its transactions to a function. Returns 0 if the log is whole, 1 if
   it isn't, and 3 if it can't be opened. */
#include <cuvragyen.h>
#include <stdio.h>

static int each_record(const char *program, const char *path, void (*take)(cuvragyen_view)) {
    static const char options[] = "records=1";
    FILE *file = fopen(path, "rb");
    cuvragyen log = CUVRAGYEN_CLOSED;
    cuvragyen_view shown;
    if (!file || cuvragyen_open(&log, options, sizeof options - 1) != CUVRAGYEN_OK) {
        fprintf(stderr, "%s: %s can't be opened\n", program, path);
        return 3;
    }
    static uint8_t piece[1 << 17];
    size_t len;
    while ((len = fread(piece, 1, sizeof piece, file)) > 0 && cuvragyen_push(&log, piece, len) == CUVRAGYEN_OK) {
        while (cuvragyen_next(&log) == CUVRAGYEN_TRANSACTION) {
            if (cuvragyen_show(&log, &shown) == CUVRAGYEN_TRANSACTION) {
                take(shown);
            }
        }
    }
    cuvragyen_end end;
    cuvragyen_stop(&log, &end);
    cuvragyen_close(&log);
    fclose(file);
    return end.verdict == CUVRAGYEN_END ? 0 : 1;
}
