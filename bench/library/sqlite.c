// The same with SQLite: blobs of 64 and 4,096 bytes by rowid, by prepared statements. A lock is a transaction that reads.
#include "measure.h"
#include <sqlite3.h>

static sqlite3 *file;
static sqlite3_stmt *put_blob, *get_blob, *begin, *end;
static uint8_t bytes[LARGE];

static void must(int said) {
    if (said == SQLITE_OK || said == SQLITE_DONE || said == SQLITE_ROW) return;
    fprintf(stderr, "sqlite: %s\n", sqlite3_errmsg(file));
    exit(1);
}

static void step(sqlite3_stmt *statement) {
    must(sqlite3_step(statement));
    must(sqlite3_reset(statement));
}
static void put(int key, int len) {
    must(sqlite3_bind_int(put_blob, 1, key));
    must(sqlite3_bind_blob(put_blob, 2, bytes, len, SQLITE_STATIC));
    step(put_blob);
}
static void get(int key, int len) {
    must(sqlite3_bind_int(get_blob, 1, key));
    must(sqlite3_step(get_blob));
    memcpy(bytes, sqlite3_column_blob(get_blob, 0), (size_t)len);
    must(sqlite3_reset(get_blob));
}

static void read_16(void) { get(1, 16); }
static void write_16(void) { put(1, 16); }
static void read_4096(void) { get(RECORDS + 1, LARGE); }
static void write_4096(void) { put(RECORDS + 1, LARGE); }
static void lock(void) {
    step(begin);
    get(1, 0);
    step(end);
}
static void commit(void) {
    step(begin);
    for (int i = 0; i < BATCH; i++) put(2 + (int)below(RECORDS - 1), RECORD);
    step(end);
}

static sqlite3_stmt *prepared(const char *text) {
    sqlite3_stmt *statement;
    must(sqlite3_prepare_v2(file, text, -1, &statement, NULL));
    return statement;
}

int main(void) {
    must(sqlite3_open("sqlite.data", &file));
    must(sqlite3_exec(file, "create table records (name integer primary key, bytes blob)", NULL, NULL, NULL));
    put_blob = prepared("insert or replace into records values (?, ?)");
    get_blob = prepared("select bytes from records where name = ?");
    begin = prepared("begin");
    end = prepared("commit");
    step(begin);
    put(1, 16);
    for (int key = 2; key <= RECORDS; key++) put(key, RECORD);
    put(RECORDS + 1, LARGE);
    step(end);
    measure("lock", 30000, lock);
    step(begin);
    measure("read_16", 50000, read_16);
    measure("read_4096", 30000, read_4096);
    measure("write_16", 30000, write_16);
    measure("write_4096", 20000, write_4096);
    step(end);
    measure("commit", 30, commit);
    return 0;
}
