// What the programs of this bench share: each prints lines of a name and the least time of a turn, in nanoseconds.
#define _GNU_SOURCE
#include <stdint.h>
#include <stdio.h>
#include <stdlib.h>
#include <string.h>
#include <time.h>

enum { RECORDS = 500, RECORD = 64, BATCH = 16, LARGE = 4096, ROUNDS = 5 };

static double now(void) {
    struct timespec t;
    clock_gettime(CLOCK_MONOTONIC, &t);
    return 1e9 * t.tv_sec + t.tv_nsec;
}

// A number below a bound; the same ones in each program.
static uint32_t seed = 1;
static uint32_t below(uint32_t bound) {
    seed = seed * 1664525u + 1013904223u;
    return (seed >> 8) % bound;
}

static void measure(const char *name, long turns, void (*turn)(void)) {
    double least = 1e30;
    for (int round = 0; round < ROUNDS; round++) {
        double begun = now();
        for (long i = 0; i < turns; i++) turn();
        double took = (now() - begun) / turns;
        if (took < least) least = took;
    }
    printf("%s %.1f\n", name, least);
}
