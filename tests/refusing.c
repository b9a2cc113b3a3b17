// A malloc that refuses the allocation whose number, from 1 on, REFUSED says. At the program's end it writes to the file that COUNTS
// names how many allocations were asked for, and how many of them were not given back.
#define _GNU_SOURCE
#include <dlfcn.h>
#include <stdio.h>
#include <stdlib.h>

static long refused, asked, held;

// Whether the next allocation is the one to refuse.
static int refuses(void) { return ++asked == refused; }

__attribute__((constructor)) static void begin(void) {
    const char *number = getenv("REFUSED");
    refused = number ? atol(number) : 0;
    asked = held = 0;
}

void *malloc(size_t size) {
    static void *(*next)(size_t);
    if (!next) next = dlsym(RTLD_NEXT, "malloc");
    void *block = refuses() ? NULL : next(size);
    held += block != NULL;
    return block;
}

void *realloc(void *old, size_t size) {
    static void *(*next)(void *, size_t);
    if (!next) next = dlsym(RTLD_NEXT, "realloc");
    void *block = refuses() ? NULL : next(old, size);
    held += old == NULL && block != NULL;
    return block;
}

void free(void *block) {
    static void (*next)(void *);
    if (!next) next = dlsym(RTLD_NEXT, "free");
    held -= block != NULL;
    next(block);
}

__attribute__((destructor)) static void end(void) {
    const char *name = getenv("COUNTS");
    long numbers[] = {asked, held};
    FILE *file = name ? fopen(name, "w") : NULL;
    if (file) {
        fprintf(file, "%ld %ld\n", numbers[0], numbers[1]);
        fclose(file);
    }
}
