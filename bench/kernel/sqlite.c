// The passes of file.rattle on 1,000 blobs of 4,000 bytes in SQLite, one to a page, with a cache of a quarter of the pages.
#include <sqlite3.h>
#include <stdint.h>
#include <stdio.h>
#include <stdlib.h>
#include <string.h>
#include <time.h>
#include <unistd.h>

enum { BLOCKS = 1000, PASSES = 40, LOCKS = 4000, WRITES = 64, SIZE = 4000 };

static double now(void) {
    struct timespec t;
    clock_gettime(CLOCK_MONOTONIC, &t);
    return 1e9 * t.tv_sec + t.tv_nsec;
}

static sqlite3 *file;

static void must(int said) {
    if (said == SQLITE_OK || said == SQLITE_DONE || said == SQLITE_ROW) return;
    fprintf(stderr, "sqlite: %s\n", sqlite3_errmsg(file));
    exit(1);
}

int main(void) {
    unsigned char blob[SIZE];
    sqlite3_stmt *get, *put;
    uint32_t x = 1;
    unlink("kernel.sqlite");
    must(sqlite3_open("kernel.sqlite", &file));
    must(sqlite3_exec(file, "PRAGMA page_size=4096; PRAGMA synchronous=FULL; PRAGMA cache_size=250; CREATE TABLE blocks (h INTEGER PRIMARY KEY, bytes BLOB); BEGIN", 0, 0, 0));
    must(sqlite3_prepare_v2(file, "INSERT OR REPLACE INTO blocks VALUES (?, ?)", -1, &put, 0));
    must(sqlite3_prepare_v2(file, "SELECT bytes FROM blocks WHERE h = ?", -1, &get, 0));
    memset(blob, 1, sizeof blob);
    for (int h = 1; h <= BLOCKS; h++) {
        must(sqlite3_bind_int(put, 1, h));
        must(sqlite3_bind_blob(put, 2, blob, SIZE, SQLITE_STATIC));
        must(sqlite3_step(put));
        must(sqlite3_reset(put));
    }
    must(sqlite3_exec(file, "COMMIT", 0, 0, 0));
    for (int p = 0; p < PASSES; p++) {
        int far = p < PASSES / 2;
        uint32_t sum = 0;
        double start = now();
        must(sqlite3_exec(file, "BEGIN", 0, 0, 0));
        for (int k = 0; k < LOCKS; k++) {
            x = x * 1664525u + 1013904223u;
            must(sqlite3_bind_int(get, 1, 1 + (int)((x >> 16) % (far ? BLOCKS : 100))));
            must(sqlite3_step(get));
            const unsigned char *bytes = sqlite3_column_blob(get, 0);
            if (!bytes) return 1;
            if (k % WRITES == 0) {
                memcpy(blob, bytes, SIZE);
                blob[0] = (unsigned char)x;
                must(sqlite3_bind_int(put, 1, 1 + (int)((x >> 16) % (far ? BLOCKS : 100))));
                must(sqlite3_bind_blob(put, 2, blob, SIZE, SQLITE_STATIC));
                must(sqlite3_reset(get));
                must(sqlite3_step(put));
                must(sqlite3_reset(put));
            } else {
                sum += bytes[0];
                must(sqlite3_reset(get));
            }
        }
        double took = now() - start;
        start = now();
        must(sqlite3_exec(file, "COMMIT", 0, 0, 0));
        printf("%s %.0f %.0f %d %u true\n", far ? "pass" : "near", took, now() - start, LOCKS, sum);
    }
    sqlite3_finalize(get);
    sqlite3_finalize(put);
    sqlite3_close(file);
    unlink("kernel.sqlite");
    return 0;
}
