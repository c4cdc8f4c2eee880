/* What C adds to the proved calls: a handle is opened and closed in three parts. What a log borrows (its options, and what its sources of
   events keep) has to outlive it, which a contract can't say of C's calls: the proofs lend it for good, and here it is freed once the
   log that borrowed it is. */
#include "cuvragyen.h"

#include <stdlib.h>
#include <string.h>

struct part {
    uint8_t *at;
};

uint32_t cuvragyen_state_open(struct part *state, const uint8_t *options, size_t len, const uint8_t *schema, size_t schema_len, uint64_t *line);
uint32_t cuvragyen_log_open(struct part *log, struct part *state);
void cuvragyen_part_close(struct part *part);

const char *cuvragyen_version(void) {
    return CUVRAGYEN_VERSION;
}

uint32_t cuvragyen_open(cuvragyen *log, const char *options, size_t len) {
    static const uint8_t none[1];
    uint64_t line = 0;
    return cuvragyen_open_with_schema(log, options, len, none, 0, &line);
}

uint32_t cuvragyen_open_with_schema(cuvragyen *log, const char *options, size_t len, const uint8_t *schema, size_t schema_len, uint64_t *line) {
    if (log->log) {
        return CUVRAGYEN_OPEN_HANDLE;
    }
    uint8_t *text = malloc(len + 1);
    if (!text) {
        return CUVRAGYEN_MEMORY;
    }
    memcpy(text, options, len);
    struct part made = {0}, state = {0};
    uint32_t result = cuvragyen_state_open(&state, text, len, schema, schema_len, line);
    struct part kept = state;
    if (result == CUVRAGYEN_OK) {
        result = cuvragyen_log_open(&made, &state);
    }
    if (result != CUVRAGYEN_OK) {
        cuvragyen_part_close(&kept);
        free(text);
        return result;
    }
    log->log = made.at;
    log->state = kept.at;
    log->options = text;
    return CUVRAGYEN_OK;
}

void cuvragyen_close(cuvragyen *log) {
    struct part made = {log->log}, state = {log->state};
    cuvragyen_part_close(&made);
    cuvragyen_part_close(&state);
    free(log->options);
    *log = (cuvragyen)CUVRAGYEN_CLOSED;
}
