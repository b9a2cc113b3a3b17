/* The trace of trace.rt with malloc, realloc and free. */
#include <stdint.h>
#include <stdio.h>
#include <stdlib.h>

enum { CALLS = 1000000, HANDLES = 512 };

static uint64_t state = 1;
static void *block[HANDLES];
static uint32_t size[HANDLES];
static uint32_t locks[HANDLES];
static uint32_t made, freed, grown, locked, unlocked, refused;

static uint32_t next(void) {
    state = state * 6364136223846793005u + 1442695040888963407u;
    return (uint32_t)(state >> 33);
}

static void unlock(uint32_t k) {
    if (locks[k] > 0) {
        locks[k] -= 1;
        unlocked += 1;
    }
}

static void make(uint32_t k, uint32_t roll) {
    size[k] = 64 + 16 * (roll % 253);
    block[k] = malloc(size[k]);
    if (block[k]) made += 1;
    else refused += 1;
}

static void grow(uint32_t k, uint32_t roll) {
    uint32_t wanted = size[k] + 16 * (roll % 32);
    if (wanted > 4096) return;
    void *moved = realloc(block[k], wanted);
    if (moved) {
        block[k] = moved;
        size[k] = wanted;
        grown += 1;
    } else refused += 1;
}

static void step(void) {
    uint32_t roll = next(), k = roll % HANDLES, more = next(), kind = roll / HANDLES % 16;
    if (!block[k]) make(k, more);
    else if (kind < 8) {
        if (locks[k] == 0) {
            free(block[k]);
            block[k] = NULL;
            freed += 1;
        } else unlock(k);
    } else if (kind < 14) grow(k, more);
    else if (kind == 14) {
        locks[k] += 1;
        locked += 1;
    } else unlock(k);
}

int main(void) {
    for (int i = 0; i < CALLS; i++) step();
    printf("made %u freed %u grown %u locked %u unlocked %u refused %u\n", made, freed, grown, locked, unlocked, refused);
    return 0;
}
