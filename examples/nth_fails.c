/* Preloaded in front of the C library: the call of malloc or realloc of the number in NTH_FAILS, from 1 on, gives no memory. Where COUNT names a file, the
   number of calls is written to it at the end. */
#define _GNU_SOURCE
#include <dlfcn.h>
#include <stddef.h>
#include <stdio.h>
#include <stdlib.h>

static long calls, nth = -1;

static int fails(void) {
    if (nth < 0) {
        const char *text = getenv("NTH_FAILS");
        nth = text ? atol(text) : 0;
    }
    return ++calls == nth;
}

void *malloc(size_t size) {
    static void *(*next)(size_t);
    if (!next) next = (void *(*)(size_t))dlsym(RTLD_NEXT, "malloc");
    return fails() ? NULL : next(size);
}

void *realloc(void *old, size_t size) {
    static void *(*next)(void *, size_t);
    if (!next) next = (void *(*)(void *, size_t))dlsym(RTLD_NEXT, "realloc");
    return fails() ? NULL : next(old, size);
}

__attribute__((destructor)) static void count(void) {
    const char *name = getenv("COUNT");
    long made = calls;
    FILE *file = name ? fopen(name, "w") : NULL;
    if (file) {
        fprintf(file, "%ld\n", made);
        fclose(file);
    }
}
