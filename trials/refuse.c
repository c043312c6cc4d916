// Refuses one request for memory: the one of the number in REFUSED, counted from 1, of those that the program makes by
// malloc and realloc. Loaded before the C library. Requests that the library makes for itself before `main` count too.
#define _GNU_SOURCE
#include <dlfcn.h>
#include <stdatomic.h>
#include <stddef.h>
#include <stdlib.h>
#include <unistd.h>

static atomic_ulong requests;

static int is_refused(void) {
    static unsigned long refused;
    if (refused == 0) {
        const char *number = getenv("REFUSED");
        refused = number ? strtoul(number, NULL, 10) : ~0ul;
    }
    if (atomic_fetch_add(&requests, 1) + 1 != refused) return 0;
    // That it was reached is told by a byte in a file that the caller opened.
    if (write(9, "r", 1) != 1) return 1;
    return 1;
}

void *malloc(size_t size) {
    static void *(*next)(size_t);
    if (!next) next = (void *(*)(size_t))dlsym(RTLD_NEXT, "malloc");
    return is_refused() ? NULL : next(size);
}

void *realloc(void *old, size_t size) {
    static void *(*next)(void *, size_t);
    if (!next) next = (void *(*)(void *, size_t))dlsym(RTLD_NEXT, "realloc");
    return is_refused() ? NULL : next(old, size);
}
