// What SQLite takes to replace one blob of 4,096 bytes of so many, durably.
#include <sqlite3.h>
#include <stdio.h>
#include <stdlib.h>
#include <string.h>
#include <time.h>
#include <unistd.h>

static double now(void) {
    struct timespec t;
    clock_gettime(CLOCK_MONOTONIC, &t);
    return 1e9 * t.tv_sec + t.tv_nsec;
}

static sqlite3 *file;

static void must(int said) {
    if (said == SQLITE_OK || said == SQLITE_DONE) return;
    fprintf(stderr, "sqlite: %s\n", sqlite3_errmsg(file));
    exit(1);
}

static void put(sqlite3_stmt *put_blob, int key, unsigned char *blob) {
    must(sqlite3_bind_int(put_blob, 1, key));
    must(sqlite3_bind_blob(put_blob, 2, blob, 4096, SQLITE_STATIC));
    must(sqlite3_step(put_blob));
    must(sqlite3_reset(put_blob));
}

static void measure(int count, int rounds) {
    unsigned char blob[4096];
    sqlite3_stmt *put_blob;
    unlink("commit.sqlite");
    must(sqlite3_open("commit.sqlite", &file));
    must(sqlite3_exec(file, "PRAGMA synchronous=FULL; CREATE TABLE blocks (h INTEGER PRIMARY KEY, bytes BLOB)", 0, 0, 0));
    must(sqlite3_prepare_v2(file, "INSERT OR REPLACE INTO blocks VALUES (?, ?)", -1, &put_blob, 0));
    memset(blob, 1, sizeof blob);
    must(sqlite3_exec(file, "BEGIN", 0, 0, 0));
    for (int k = 1; k <= count; k++) put(put_blob, k, blob);
    must(sqlite3_exec(file, "COMMIT", 0, 0, 0));
    double least = 1e18;
    for (int i = 0; i < rounds; i++) {
        double start = now();
        blob[0] = i;
        put(put_blob, 1 + i % count, blob);
        double taken = now() - start;
        if (taken < least) least = taken;
    }
    printf("%d %.0f\n", count, least);
    sqlite3_finalize(put_blob);
    sqlite3_close(file);
    unlink("commit.sqlite");
}

int main(void) {
    measure(1, 200);
    measure(16, 200);
    measure(256, 200);
    return 0;
}
