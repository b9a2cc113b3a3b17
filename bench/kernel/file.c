// The same as file.rattle, on the file that it made: reads blocks by pread and checks them, by the same walk over the header, the table,
// the chunks and the free ones; and passes of locks over a quarter of the blocks in memory, which a clock replaces, with commits that
// copy all blocks into one buffer, write it to the other area and make it last, and then the selector. A lock, a look-up of a chunk and
// an unlock make the tests that refusals ask for, and keep the count.
#define _GNU_SOURCE
#include <fcntl.h>
#include <stdint.h>
#include <stdio.h>
#include <stdlib.h>
#include <string.h>
#include <time.h>
#include <unistd.h>

enum { BLOCKS = 1000, SIZE = 4096, ROUNDS = 30, PASSES = 40, LOCKS = 4000, WRITES = 64, FIRST = 16, FRAMES = 250, GROUP = 0xff00 };

static int file;
static uint32_t area;
static unsigned char selector;
static unsigned char *area_bytes; // what a commit writes
static long area_used;
static long places[BLOCKS + 1]; // where the block of a handle stands in an area
static unsigned char groups[BLOCKS + 1]; // whether it is a group, which is not locked so

static double now(void) {
    struct timespec t;
    clock_gettime(CLOCK_MONOTONIC, &t);
    return 1e9 * t.tv_sec + t.tv_nsec;
}

static unsigned word(const unsigned char *block, unsigned at) {
    uint16_t w;
    memcpy(&w, block + at, 2);
    return w;
}

// Whether the bytes are a heap under a handle.
static int check(const unsigned char *block, unsigned size, unsigned h) {
    static unsigned char starts[65536 / 4];
    if (size < 64 || size > 65520 || size % 16) return 0;
    unsigned n = word(block, 10), table = 16 + 2 * n;
    if (word(block, 0) != h || word(block, 2) != 16 || word(block, 4) || word(block, 6) || word(block, 8) != size) return 0;
    if (n < 2 || n % 2 || table > size) return 0;
    memset(starts, 0, size / 4);
    unsigned left = 0; // marks that the walk is still to come by
    for (unsigned i = 0; i < n; i++) {
        unsigned at = word(block, 16 + 2 * i);
        if (at == 0 || at == 0xffff) continue;
        if (at < table + 2 || at >= size || at % 4 != 2 || starts[at / 4]) return 0;
        starts[at / 4] = 1;
        left++;
    }
    unsigned at = table, free_at = word(block, 12), sum = 0;
    while (at < size) {
        unsigned w = word(block, at), end = at + w;
        if (starts[at / 4]) {
            end = (at + w + 3) / 4 * 4;
            if (w < 3) return 0;
            left--;
        } else {
            unsigned next = word(block, at + 2);
            if (free_at != at || w == 0 || w % 4 || next == end) return 0;
            free_at = next;
            sum += w;
        }
        if (end > size) return 0;
        at = end;
    }
    return free_at == 0 && sum == word(block, 14) && left == 0;
}

static long base(void) { return 1024 + selector * (long)area; }

// Reads where the blocks stand.
static void open_file(void) {
    unsigned char head[12];
    file = open("kernel.vm", O_RDWR);
    if (file < 0 || pread(file, head, 12, 0) != 12 || pread(file, &selector, 1, 512) != 1) exit(1);
    memcpy(&area, head + 8, 4);
    selector %= 2;
    area_bytes = malloc(area);
    if (!area_bytes || pread(file, area_bytes, area, base()) != area) exit(1);
    long at = 2;
    for (unsigned k = 0; k < word(area_bytes, 0); k++) {
        if (word(area_bytes, at + 4) != SIZE) exit(1);
        places[word(area_bytes, at)] = at + 6;
        groups[word(area_bytes, at)] = word(area_bytes, at + 2) == GROUP;
        at += 6 + SIZE;
    }
    area_used = at + 6 + 8;
}

static int fetch_block(unsigned h, unsigned char *into) {
    return pread(file, into, SIZE, base() + places[h]) == SIZE && check(into, SIZE, h);
}

static void fetches(void) {
    unsigned char *blocks = malloc((long)BLOCKS * SIZE);
    if (!blocks) exit(1);
    memset(blocks, 0, (long)BLOCKS * SIZE);
    for (int round = 0; round < ROUNDS; round++) {
        int done = 0;
        double start = now();
        for (unsigned k = 0; k < BLOCKS; k++) done += fetch_block(1 + k * 377 % BLOCKS, blocks + (long)k * SIZE);
        double took = now() - start;
        double plain = now();
        for (unsigned k = 0; k < BLOCKS; k++) done += pread(file, blocks + (long)k * SIZE, SIZE, base() + places[1 + k * 377 % BLOCKS]) == SIZE;
        printf("fetch %.0f %.0f %d\n", took, now() - plain, done / 2);
    }
    free(blocks);
}

// Frames, which a clock goes round. A block that is locked stays, and one that was written until a commit.
static unsigned char frames[FRAMES][SIZE];
static struct { unsigned h; uint16_t locks; unsigned char used, dirty; } of_frame[FRAMES];
static int frame_of[BLOCKS + 1];
static unsigned hand;

static int lock(unsigned h) {
    if (h == 0 || h > BLOCKS || groups[h]) return -1;
    int there = frame_of[h];
    if (there >= 0) {
        if (of_frame[there].locks == 65535) return -1;
        of_frame[there].locks++;
        of_frame[there].used = 1;
        return there;
    }
    for (;;) {
        unsigned f = hand;
        hand = (hand + 1) % FRAMES;
        if (of_frame[f].locks || of_frame[f].dirty) continue;
        if (of_frame[f].used) {
            of_frame[f].used = 0;
            continue;
        }
        if (of_frame[f].h) frame_of[of_frame[f].h] = -1;
        of_frame[f].h = 0;
        if (!fetch_block(h, frames[f])) return -1;
        of_frame[f].h = h;
        of_frame[f].locks = 1;
        of_frame[f].used = 1;
        frame_of[h] = (int)f;
        return (int)f;
    }
}

// Where the bytes of a chunk stand, `least` or more; 0 where there is no such chunk.
static unsigned find(const unsigned char *block, unsigned chunk, unsigned least) {
    if (chunk % 2 || chunk < FIRST || chunk >= FIRST + 2 * word(block, 10)) return 0;
    unsigned at = word(block, chunk);
    if (at == 0 || at == 0xffff || word(block, at - 2) - 2 < least) return 0;
    return at;
}

static int commit(void) {
    unsigned char *bytes = malloc(area_used);
    if (!bytes) return 0;
    memcpy(bytes, area_bytes, 2);
    for (unsigned h = 1; h <= BLOCKS; h++) {
        memcpy(bytes + places[h] - 6, area_bytes + places[h] - 6, 6);
        if (frame_of[h] >= 0) memcpy(bytes + places[h], frames[frame_of[h]], SIZE);
        else if (!fetch_block(h, bytes + places[h])) return 0;
    }
    memset(bytes + area_used - 14, 0, 14);
    selector = !selector;
    int done = pwrite(file, bytes, area_used, base()) == area_used && !fdatasync(file) && pwrite(file, &selector, 1, 512) == 1 && !fdatasync(file);
    for (unsigned f = 0; f < FRAMES; f++) of_frame[f].dirty = 0;
    free(bytes);
    return done;
}

static void passes(void) {
    uint32_t x = 1;
    memset(frame_of, -1, sizeof frame_of);
    for (int p = 0; p < PASSES; p++) {
        int far = p < PASSES / 2;
        uint32_t sum = 0;
        int done = 0;
        double start = now();
        for (int k = 0; k < LOCKS; k++) {
            x = x * 1664525u + 1013904223u;
            int f = lock(1 + (x >> 16) % (far ? BLOCKS : 100));
            if (f < 0) continue;
            unsigned char *block = frames[f];
            unsigned at = find(block, FIRST, 2);
            if (at == 0) continue;
            if (k % WRITES == 0) {
                uint16_t w = (uint16_t)x;
                of_frame[f].dirty = 1;
                memcpy(block + at, &w, 2);
            } else {
                sum += word(block, at);
            }
            of_frame[f].locks--;
            done++;
        }
        double took = now() - start;
        start = now();
        int kept = commit();
        printf("%s %.0f %.0f %d %u %s\n", far ? "pass" : "near", took, now() - start, done, sum, kept ? "true" : "false");
    }
}

int main(void) {
    open_file();
    fetches();
    passes();
    return 0;
}
