/* Makes a program's allocation number REFUSE_REQUEST, counted from 1, fail, and creates the file REFUSE_MARK if it did. At the
   program's end it writes into the file MEMORY_COUNTS how many blocks of memory were allocated and not freed, a space, and the
   number of all its allocations.

   It is preloaded before a program. If it is compiled with -DLINKED, it is linked into one that `rt try` builds (checks/lib/kept.py):
   then only the program's own allocations count, and `PROGRAM --keep PATH` copies the program to a path. */
#define _GNU_SOURCE
#include <dlfcn.h>
#include <fcntl.h>
#include <stdio.h>
#include <stdlib.h>
#include <string.h>
#include <unistd.h>

static unsigned long requests;
static long blocks;

#ifdef LINKED
/* The program's memory checker has allocators of its own under these names. */
void *__interceptor_malloc(size_t size);
void *__interceptor_realloc(void *old, size_t size);
void __interceptor_free(void *block);
#define FIND(next, name) (next = __interceptor_##name)
#define OWN __attribute__((visibility("hidden")))
#else
#define FIND(next, name) (next = next ? next : (__typeof__(next))dlsym(RTLD_NEXT, #name))
#define OWN
#endif

static int is_refused(void) {
    const char *number = getenv("REFUSE_REQUEST");
    const char *mark = getenv("REFUSE_MARK");
    requests++;
    if (!number || !mark || requests != strtoul(number, NULL, 10)) {
        return 0;
    }
    int file = open(mark, O_CREAT | O_WRONLY, 0600);
    if (file >= 0) {
        close(file);
    }
    return 1;
}

/* Counts a block that was allocated, if one was. */
static void *given(void *block) {
    if (block) {
        blocks++;
    }
    return block;
}

OWN void *malloc(size_t size) {
    static void *(*next)(size_t);
    FIND(next, malloc);
    return is_refused() ? NULL : given(next(size));
}

OWN void *realloc(void *old, size_t size) {
    static void *(*next)(void *, size_t);
    FIND(next, realloc);
    if (is_refused()) {
        return NULL;
    }
    return old ? next(old, size) : given(next(old, size));
}

OWN void free(void *block) {
    static void (*next)(void *);
    FIND(next, free);
    if (block) {
        blocks--;
    }
    next(block);
}

#ifdef LINKED
__attribute__((constructor)) static void keep(int argc, char **argv) {
    char bytes[65536];
    ssize_t count;
    if (argc != 3 || strcmp(argv[1], "--keep")) {
        return;
    }
    int from = open(argv[0], O_RDONLY), to = open(argv[2], O_CREAT | O_WRONLY | O_TRUNC, 0700);
    while ((count = read(from, bytes, sizeof bytes)) > 0) {
        if (write(to, bytes, count) != count) {
            break;
        }
    }
    _exit(count != 0);
}
#endif

__attribute__((destructor)) static void write_counts(void) {
    const char *path = getenv("MEMORY_COUNTS");
    int file = path ? open(path, O_CREAT | O_WRONLY | O_TRUNC, 0600) : -1;
    if (file >= 0) {
        dprintf(file, "%ld %lu\n", blocks, requests);
        close(file);
    }
}
