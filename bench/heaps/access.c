/* The same rounds as in access.rattle on a table of pointers, with no handles, no lengths and no checks. */
#include <stdint.h>
#include <stdio.h>
#include <stdlib.h>
#include <string.h>
#include <time.h>

enum { CHUNKS = 100, ROUNDS = 50000000 };

static uint64_t now(void) {
    struct timespec t;
    clock_gettime(CLOCK_MONOTONIC, &t);
    return (uint64_t)t.tv_sec * 1000000000u + (uint64_t)t.tv_nsec;
}

static uint16_t load16(const uint8_t *at) {
    uint16_t word;
    memcpy(&word, at, sizeof word);
    return word;
}

static __attribute__((noinline)) uint32_t deref(uint8_t **chunks) {
    uint32_t sum = 0, k = 0;
    for (int round = 0; round < ROUNDS; round++) {
        sum += (uint32_t)(chunks[k % CHUNKS] - chunks[0]);
        k += 1 + sum % 2;
    }
    return sum;
}

static __attribute__((noinline)) uint32_t load(const uint8_t *chunk) {
    uint32_t sum = 0, k = 0;
    for (int round = 0; round < ROUNDS; round++) {
        sum += load16(chunk + k % 63);
        k += 1 + sum % 2;
    }
    return sum;
}

static __attribute__((noinline)) uint32_t store(uint8_t **chunks) {
    uint32_t sum = 0, k = 0;
    for (int round = 0; round < ROUNDS; round++) {
        uint8_t *chunk = chunks[k % CHUNKS];
        uint16_t word = (uint16_t)k;
        memcpy(chunk + k % 63, &word, sizeof word);
        sum += (uint32_t)(chunk - chunks[0]);
        k += 1 + sum % 2;
    }
    return sum;
}

int main(void) {
    static uint8_t block[65536];
    uint8_t *chunks[CHUNKS];
    for (int c = 0; c < CHUNKS; c++) chunks[c] = block + 218 + 68 * c;
    uint64_t start = now();
    uint32_t sum = deref(chunks);
    uint64_t looked = now();
    sum += load(chunks[0]);
    uint64_t read = now();
    sum += store(chunks);
    uint64_t wrote = now();
    printf("%llu %llu %llu %u\n", (unsigned long long)(looked - start), (unsigned long long)(read - looked), (unsigned long long)(wrote - read), sum);
    return 0;
}
