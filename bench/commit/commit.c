// Writes the same bytes to a file as a commit does, and makes them last: an area, and then the selector; and reads a file whole. It
// writes the area from where it stands, and then again from memory that it takes each time and copies the blocks to, as a commit does.
#define _GNU_SOURCE
#include <fcntl.h>
#include <stdio.h>
#include <stdlib.h>
#include <string.h>
#include <time.h>
#include <unistd.h>

static double now(void) {
    struct timespec t;
    clock_gettime(CLOCK_MONOTONIC, &t);
    return 1e9 * t.tv_sec + t.tv_nsec;
}

// The area, in memory of its own: the blocks are copied one behind the other, each behind its six bytes.
static unsigned char *gather(const unsigned char *blocks, long count, long size, long bytes) {
    unsigned char *area = malloc(bytes);
    if (!area) exit(1);
    for (long k = 0; k < count; k++) memcpy(area + 2 + k * (6 + size) + 6, blocks + k * size, size);
    return area;
}

static void measure(const char *what, int gathers, long count, long size, long area, int rounds) {
    long bytes = 8 + count * (6 + size) + 8;
    unsigned char *from = malloc(bytes);
    int file = open("commit.raw", O_RDWR | O_CREAT | O_TRUNC, 0600);
    if (!from || file < 0 || ftruncate(file, 1024 + 2 * area)) exit(1);
    // bytes of its own: what was never written is one page of zeros, which is read from the cache
    memset(from, 1, bytes);
    unsigned char selector = 0;
    double least = 1e18;
    for (int i = 0; i < rounds; i++) {
        double start = now();
        selector = !selector;
        unsigned char *written_from = gathers ? gather(from, count, size, bytes) : from;
        if (pwrite(file, written_from, bytes, 1024 + selector * area) != bytes || fdatasync(file)) exit(1);
        if (pwrite(file, &selector, 1, 512) != 1 || fdatasync(file)) exit(1);
        if (gathers) free(written_from);
        double written = now() - start;
        if (written < least) least = written;
    }
    double start = now();
    if (pread(file, from, bytes, 1024 + selector * area) != bytes) exit(1);
    double read = now() - start;
    printf("%s %ld %ld %.0f %.0f\n", what, count, size, least, read);
    close(file);
    unlink("commit.raw");
    free(from);
}

static void measure_all(const char *what, int gathers) {
    measure(what, gathers, 1, 4096, 4608, 200);
    measure(what, gathers, 16, 4096, 66048, 200);
    measure(what, gathers, 256, 4096, 1050624, 200);
    measure(what, gathers, 256, 65520, 16777216, 5);
}

int main(void) {
    measure_all("raw", 0);
    measure_all("gathered", 1);
    return 0;
}
