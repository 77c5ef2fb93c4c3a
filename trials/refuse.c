// Refuses one growth of the program that it is preloaded into: the one with the number REFUSE, from 1.
#define _GNU_SOURCE
#include <dlfcn.h>
#include <stdlib.h>

static long asked = 0;
static long refused = -1;

static int refuses(void) {
    if (refused < 0) {
        const char *number = getenv("REFUSE");
        refused = number ? atol(number) : 0;
    }
    return ++asked == refused;
}

void *malloc(size_t size) {
    static void *(*given)(size_t) = 0;
    if (!given) given = dlsym(RTLD_NEXT, "malloc");
    return refuses() ? 0 : given(size);
}

void *realloc(void *from, size_t size) {
    static void *(*given)(void *, size_t) = 0;
    if (!given) given = dlsym(RTLD_NEXT, "realloc");
    return refuses() ? 0 : given(from, size);
}
