/* The trace of trace.rattle with malloc, realloc and free. */
#include <stdint.h>
#include <stdio.h>
#include <stdlib.h>

enum { CALLS = 5000000, SLOTS = 300 };

static uint64_t state = 1;
static void *chunk[SLOTS];
static uint32_t size[SLOTS];
static uint32_t made, changed, freed, refused;

static uint32_t next(void) {
    state = state * 6364136223846793005u + 1442695040888963407u;
    return (uint32_t)(state >> 33);
}

static void step(uint32_t k) {
    uint32_t roll = next(), n = roll / 2 % 200 + 1;
    if (!chunk[k]) {
        chunk[k] = malloc(n);
        if (chunk[k]) {
            size[k] = n;
            made += 1;
        } else refused += 1;
    } else if (roll % 2 == 0) {
        void *moved = realloc(chunk[k], n);
        if (moved) {
            chunk[k] = moved;
            size[k] = n;
            changed += 1;
        } else refused += 1;
    } else {
        free(chunk[k]);
        chunk[k] = NULL;
        freed += 1;
    }
}

int main(void) {
    for (int i = 0; i < CALLS; i++) step(next() % SLOTS);
    uint32_t chunks = 0, bytes = 0;
    for (int k = 0; k < SLOTS; k++) {
        if (!chunk[k]) continue;
        chunks += 1;
        bytes += size[k];
    }
    printf("made %u changed %u freed %u refused %u, left %u chunks of %u bytes\n", made, changed, freed, refused, chunks, bytes);
    return 0;
}
