// What LMDB takes to replace one value of 4,096 bytes of so many, durably.
#include <lmdb.h>
#include <stdio.h>
#include <stdlib.h>
#include <string.h>
#include <time.h>
#include <unistd.h>

static double now(void) {
    struct timespec t;
    clock_gettime(CLOCK_MONOTONIC, &t);
    return 1e9 * t.tv_sec + t.tv_nsec;
}

static void must(int said) {
    if (!said) return;
    fprintf(stderr, "lmdb: %s\n", mdb_strerror(said));
    exit(1);
}

static void put(MDB_txn *txn, MDB_dbi dbi, int key, unsigned char *bytes) {
    MDB_val name = {sizeof key, &key}, value = {4096, bytes};
    must(mdb_put(txn, dbi, &name, &value, 0));
}

static void measure(int count, int rounds) {
    unsigned char bytes[4096];
    MDB_env *env;
    MDB_txn *txn;
    MDB_dbi dbi;
    unlink("commit.mdb");
    must(mdb_env_create(&env));
    must(mdb_env_set_mapsize(env, 64 << 20));
    must(mdb_env_open(env, "commit.mdb", MDB_NOSUBDIR, 0600));
    memset(bytes, 1, sizeof bytes);
    must(mdb_txn_begin(env, NULL, 0, &txn));
    must(mdb_dbi_open(txn, NULL, 0, &dbi));
    for (int k = 1; k <= count; k++) put(txn, dbi, k, bytes);
    must(mdb_txn_commit(txn));
    double least = 1e18;
    for (int i = 0; i < rounds; i++) {
        double start = now();
        bytes[0] = i;
        must(mdb_txn_begin(env, NULL, 0, &txn));
        put(txn, dbi, 1 + i % count, bytes);
        must(mdb_txn_commit(txn));
        double taken = now() - start;
        if (taken < least) least = taken;
    }
    printf("%d %.0f\n", count, least);
    mdb_env_close(env);
    unlink("commit.mdb");
    unlink("commit.mdb-lock");
}

int main(void) {
    measure(1, 200);
    measure(16, 200);
    measure(256, 200);
    return 0;
}
