// The passes of file.rattle on 1,000 values of 4,000 bytes in LMDB, one to a page, which maps all of the file.
#include <lmdb.h>
#include <stdint.h>
#include <stdio.h>
#include <stdlib.h>
#include <string.h>
#include <time.h>
#include <unistd.h>

enum { BLOCKS = 1000, PASSES = 40, LOCKS = 4000, WRITES = 64, SIZE = 4000 };

static double now(void) {
    struct timespec t;
    clock_gettime(CLOCK_MONOTONIC, &t);
    return 1e9 * t.tv_sec + t.tv_nsec;
}

static void must(int said) {
    if (!said) return;
    fprintf(stderr, "lmdb: %s\n", mdb_strerror(said));
    exit(1);
}

static void put(MDB_txn *txn, MDB_dbi dbi, unsigned h, unsigned char *bytes) {
    MDB_val name = {sizeof h, &h}, value = {SIZE, bytes};
    must(mdb_put(txn, dbi, &name, &value, 0));
}

int main(void) {
    unsigned char bytes[SIZE];
    uint32_t x = 1;
    MDB_env *env;
    MDB_txn *txn;
    MDB_dbi dbi;
    unlink("kernel.mdb");
    must(mdb_env_create(&env));
    must(mdb_env_set_mapsize(env, 64 << 20));
    must(mdb_env_open(env, "kernel.mdb", MDB_NOSUBDIR, 0600));
    memset(bytes, 1, sizeof bytes);
    must(mdb_txn_begin(env, NULL, 0, &txn));
    must(mdb_dbi_open(txn, NULL, MDB_INTEGERKEY, &dbi));
    for (unsigned h = 1; h <= BLOCKS; h++) put(txn, dbi, h, bytes);
    must(mdb_txn_commit(txn));
    for (int p = 0; p < PASSES; p++) {
        int far = p < PASSES / 2;
        uint32_t sum = 0;
        double start = now();
        must(mdb_txn_begin(env, NULL, 0, &txn));
        for (int k = 0; k < LOCKS; k++) {
            x = x * 1664525u + 1013904223u;
            unsigned h = 1 + (x >> 16) % (far ? BLOCKS : 100);
            MDB_val name = {sizeof h, &h}, value;
            must(mdb_get(txn, dbi, &name, &value));
            if (k % WRITES == 0) {
                memcpy(bytes, value.mv_data, SIZE);
                bytes[0] = (unsigned char)x;
                put(txn, dbi, h, bytes);
            } else {
                sum += *(unsigned char *)value.mv_data;
            }
        }
        double took = now() - start;
        start = now();
        must(mdb_txn_commit(txn));
        printf("%s %.0f %.0f %d %u true\n", far ? "pass" : "near", took, now() - start, LOCKS, sum);
    }
    mdb_env_close(env);
    unlink("kernel.mdb");
    unlink("kernel.mdb-lock");
    return 0;
}
