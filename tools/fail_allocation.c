// A stand-in of malloc and its kin, to be loaded before the program: it fails at the call whose number FAIL_ALLOCATION tells,
// counted from 1, and writes how many calls there were to the file that COUNT_ALLOCATIONS names.
#define _GNU_SOURCE
#include <dlfcn.h>
#include <stdio.h>
#include <stdlib.h>

static long calls, wanted = -1;

static int fails(void) {
    if (wanted < 0) {
        const char *text = getenv("FAIL_ALLOCATION");
        wanted = text ? atol(text) : 0;
    }
    return ++calls == wanted;
}

__attribute__((destructor)) static void count(void) {
    const char *name = getenv("COUNT_ALLOCATIONS");
    FILE *file = name ? fopen(name, "w") : 0;
    if (file) {
        fprintf(file, "%ld\n", calls);
        fclose(file);
    }
}

void *malloc(size_t n) {
    static void *(*next)(size_t);
    if (!next) next = dlsym(RTLD_NEXT, "malloc");
    return fails() ? 0 : next(n);
}

void *realloc(void *p, size_t n) {
    static void *(*next)(void *, size_t);
    if (!next) next = dlsym(RTLD_NEXT, "realloc");
    return fails() ? 0 : next(p, n);
}

void *aligned_alloc(size_t a, size_t n) {
    static void *(*next)(size_t, size_t);
    if (!next) next = dlsym(RTLD_NEXT, "aligned_alloc");
    return fails() ? 0 : next(a, n);
}

int posix_memalign(void **p, size_t a, size_t n) {
    static int (*next)(void **, size_t, size_t);
    if (!next) next = dlsym(RTLD_NEXT, "posix_memalign");
    return fails() ? 12 : next(p, a, n);
}
