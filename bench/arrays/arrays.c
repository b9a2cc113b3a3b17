/* The rounds of arrays.rattle on an array that is kept by realloc and memmove, with the index and the length of what is read
   checked: the next one depends on it. Where sizes vary the offsets stand in an array of their own. */
#include <stdint.h>
#include <stdio.h>
#include <stdlib.h>
#include <string.h>
#include <time.h>

enum { ELEMENTS = 4000, ROUNDS = 20, READS = 40000 };

typedef struct {
    uint8_t *bytes;
    uint16_t *offsets; /* where elements end; none where they have one size */
    uint32_t count, size, used;
} Array;

static uint64_t now(void) {
    struct timespec t;
    clock_gettime(CLOCK_MONOTONIC, &t);
    return (uint64_t)t.tv_sec * 1000000000u + (uint64_t)t.tv_nsec;
}

static __attribute__((noinline)) int append(Array *a, uint32_t n) {
    if (a->size) n = a->size;
    uint8_t *bytes = realloc(a->bytes, a->used + n + 1);
    if (!bytes) return 0;
    a->bytes = bytes;
    memset(bytes + a->used, 0, n);
    a->used += n;
    if (!a->size) {
        uint16_t *offsets = realloc(a->offsets, (a->count + 1) * sizeof *offsets);
        if (!offsets) return 0;
        a->offsets = offsets;
        offsets[a->count] = (uint16_t)a->used;
    }
    a->count += 1;
    return 1;
}

static uint8_t *element(const Array *a, uint32_t i, uint32_t n) {
    if (i >= a->count) return NULL;
    if (a->size) return a->size < n ? NULL : a->bytes + i * a->size;
    uint32_t start = i ? a->offsets[i - 1] : 0;
    return a->offsets[i] - start < n ? NULL : a->bytes + start;
}

static __attribute__((noinline)) void remove_first(Array *a) {
    uint32_t n = a->size ? a->size : a->offsets[0];
    memmove(a->bytes, a->bytes + n, a->used - n);
    a->used -= n;
    a->count -= 1;
    if (!a->size)
        for (uint32_t i = 0; i < a->count; i++) a->offsets[i] = (uint16_t)(a->offsets[i + 1] - n);
}

static void rounds(int varying) {
    uint64_t appending = 0, reading = 0, removing = 0;
    uint32_t sum = 0;
    for (int round = 0; round < ROUNDS; round++) {
        Array a = {NULL, NULL, 0, varying ? 0 : 4, 0};
        uint64_t start = now();
        for (uint32_t i = 0; i < ELEMENTS; i++) append(&a, i % 21);
        appending += now() - start;
        for (uint32_t i = 0; i < ELEMENTS; i++) {
            uint8_t *at = element(&a, i, 2);
            uint16_t word = (uint16_t)i;
            if (at) memcpy(at, &word, sizeof word);
        }
        start = now();
        uint32_t read = 0, k = 0;
        for (int j = 0; j < READS; j++) {
            const uint8_t *at = element(&a, k % ELEMENTS, 2);
            if (at) {
                uint16_t word;
                memcpy(&word, at, sizeof word);
                read += word;
            }
            k += 1 + read % 2;
        }
        sum += read;
        reading += now() - start;
        start = now();
        for (uint32_t i = 0; i < ELEMENTS; i++) remove_first(&a);
        removing += now() - start;
        free(a.bytes);
        free(a.offsets);
    }
    printf("%llu %llu %llu %u\n", (unsigned long long)appending, (unsigned long long)reading, (unsigned long long)removing, sum);
}

int main(void) {
    rounds(0);
    rounds(1);
    return 0;
}
