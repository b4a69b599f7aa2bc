/* Counts the allocations of the program that it is preloaded into, and refuses the one whose number REFUSE names. */
#define _GNU_SOURCE
#include <dlfcn.h>
#include <errno.h>
#include <stdlib.h>

static long refused = -1;
static long seen = 0;
static int is_counting = 0;

__attribute__((constructor)) static void begin(void) {
    const char *number = getenv("REFUSE");
    if (number != NULL) {
        refused = atol(number);
    }
    is_counting = 1;
}

static int is_refused(void) {
    if (!is_counting) {
        return 0;
    }
    seen += 1;
    return seen == refused;
}

void *malloc(size_t size) {
    static void *(*real)(size_t);
    if (real == NULL) {
        real = dlsym(RTLD_NEXT, "malloc");
    }
    return is_refused() ? NULL : real(size);
}

void *realloc(void *old, size_t size) {
    static void *(*real)(void *, size_t);
    if (real == NULL) {
        real = dlsym(RTLD_NEXT, "realloc");
    }
    return is_refused() ? NULL : real(old, size);
}

int posix_memalign(void **place, size_t align, size_t size) {
    static int (*real)(void **, size_t, size_t);
    if (real == NULL) {
        real = dlsym(RTLD_NEXT, "posix_memalign");
    }
    return is_refused() ? ENOMEM : real(place, align, size);
}
