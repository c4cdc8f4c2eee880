/* Preloaded before a program: ends the process at its write to a file, or its change of a file's length, with the number KILL_AT,
   counted from 1. Half of the bytes of that write are written. At another end of the program it writes into the file KILL_COUNT how
   many there were. */
#define _GNU_SOURCE
#include <dlfcn.h>
#include <signal.h>
#include <stdio.h>
#include <stdlib.h>
#include <unistd.h>

static unsigned long changes;

/* Whether the process has to end now. */
static int is_last(void) {
    const char *number = getenv("KILL_AT");
    changes++;
    return number && changes == strtoul(number, NULL, 10);
}

ssize_t pwrite(int file, const void *bytes, size_t size, off_t offset) {
    static ssize_t (*next)(int, const void *, size_t, off_t);
    if (!next) {
        next = (ssize_t(*)(int, const void *, size_t, off_t))dlsym(RTLD_NEXT, "pwrite");
    }
    if (is_last()) {
        next(file, bytes, size / 2, offset);
        raise(SIGKILL);
    }
    return next(file, bytes, size, offset);
}

ssize_t pwrite64(int file, const void *bytes, size_t size, off_t offset) {
    return pwrite(file, bytes, size, offset);
}

int ftruncate(int file, off_t length) {
    static int (*next)(int, off_t);
    if (!next) {
        next = (int (*)(int, off_t))dlsym(RTLD_NEXT, "ftruncate");
    }
    if (is_last()) {
        raise(SIGKILL);
    }
    return next(file, length);
}

int ftruncate64(int file, off_t length) {
    return ftruncate(file, length);
}

__attribute__((destructor)) static void count(void) {
    const char *name = getenv("KILL_COUNT");
    FILE *out = name ? fopen(name, "w") : NULL;
    if (out) {
        fprintf(out, "%lu\n", changes);
        fclose(out);
    }
}
