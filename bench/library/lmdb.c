// The same with LMDB: values of 64 and 4,096 bytes by numbers. A lock is a transaction that reads.
#include "measure.h"
#include <lmdb.h>

static MDB_env *env;
static MDB_txn *txn;
static MDB_dbi dbi;
static uint8_t bytes[LARGE];

static void must(int said) {
    if (!said) return;
    fprintf(stderr, "lmdb: %s\n", mdb_strerror(said));
    exit(1);
}

static void put(uint32_t key, size_t len) {
    MDB_val name = {sizeof key, &key}, value = {len, bytes};
    must(mdb_put(txn, dbi, &name, &value, 0));
}
static void get(uint32_t key, size_t len) {
    MDB_val name = {sizeof key, &key}, value;
    must(mdb_get(txn, dbi, &name, &value));
    memcpy(bytes, value.mv_data, len);
}

static void lock(void) {
    mdb_txn_reset(txn);
    must(mdb_txn_renew(txn));
}
static void read_16(void) { get(0, 16); }
static void write_16(void) { put(0, 16); }
static void read_4096(void) { get(RECORDS, LARGE); }
static void write_4096(void) { put(RECORDS, LARGE); }
static void commit(void) {
    must(mdb_txn_begin(env, NULL, 0, &txn));
    for (int i = 0; i < BATCH; i++) put(1 + below(RECORDS - 1), RECORD);
    must(mdb_txn_commit(txn));
}

int main(void) {
    must(mdb_env_create(&env));
    must(mdb_env_set_mapsize(env, 1 << 26));
    must(mdb_env_open(env, "lmdb.data", MDB_NOSUBDIR, 0600));
    must(mdb_txn_begin(env, NULL, 0, &txn));
    must(mdb_dbi_open(txn, NULL, MDB_INTEGERKEY, &dbi));
    put(0, 16);
    for (uint32_t key = 1; key < RECORDS; key++) put(key, RECORD);
    put(RECORDS, LARGE);
    must(mdb_txn_commit(txn));
    must(mdb_txn_begin(env, NULL, MDB_RDONLY, &txn));
    measure("lock", 300000, lock);
    measure("read_16", 200000, read_16);
    measure("read_4096", 50000, read_4096);
    mdb_txn_abort(txn);
    must(mdb_txn_begin(env, NULL, 0, &txn));
    measure("write_16", 100000, write_16);
    measure("write_4096", 30000, write_4096);
    mdb_txn_abort(txn);
    measure("commit", 30, commit);
    return 0;
}
