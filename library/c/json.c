/* json FILE [PIECE] [OPTIONS]: prints the committed changes of a log as JSON lines, as binlog-changes json does. */
#include <cuvragyen.h>
#include <stdio.h>
#include <stdlib.h>
#include <string.h>

int main(int argc, char **argv) {
    if (argc < 2) {
        fprintf(stderr, "usage: json FILE [PIECE] [OPTIONS]\n");
        return 2;
    }
    size_t piece_len = argc > 2 ? strtoul(argv[2], NULL, 10) : 1 << 17;
    const char *options = argc > 3 ? argv[3] : "";
    FILE *file = fopen(argv[1], "rb");
    uint8_t *piece = malloc(piece_len);
    cuvragyen log = CUVRAGYEN_CLOSED;
    if (!file || !piece || cuvragyen_open(&log, options, strlen(options)) != CUVRAGYEN_OK) {
        fprintf(stderr, "json: %s can't be opened, or the options are wrong\n", argv[1]);
        return 3;
    }
    size_t len;
    uint32_t result = CUVRAGYEN_OK;
    while (result == CUVRAGYEN_OK && (len = fread(piece, 1, piece_len, file)) > 0) {
        result = cuvragyen_push(&log, piece, len);
        while (result == CUVRAGYEN_OK && (result = cuvragyen_next(&log)) == CUVRAGYEN_TRANSACTION) {
            cuvragyen_view lines;
            result = cuvragyen_show(&log, &lines);
            if (result == CUVRAGYEN_TRANSACTION) {
                fwrite(lines.at, 1, lines.len, stdout);
                result = CUVRAGYEN_OK;
            }
        }
    }
    cuvragyen_end end;
    cuvragyen_view name;
    cuvragyen_stop(&log, &end);
    cuvragyen_verdict_name(end.verdict, &name);
    fprintf(stderr, "%.*s at %llu\n", (int)name.len, (const char *)name.at, (unsigned long long)end.offset);
    cuvragyen_close(&log);
    free(piece);
    fclose(file);
    return end.verdict == CUVRAGYEN_END && !end.is_cut && !end.is_open ? 0 : 1;
}
