// The same in C over memory of malloc, with no test of anything, and a file that is written as a whole beside the one that it replaces.
#include "measure.h"
#include <fcntl.h>
#include <unistd.h>

static uint8_t *large, *small, *records, bytes[LARGE];
static int file;

// The compiler is not to see through these.
static void *volatile kept;
static void see(void) { __asm__ volatile("" ::: "memory"); }

static void make_and_free(void) {
    kept = malloc(16);
    free(kept);
}
static void read_16(void) {
    memcpy(bytes, small, 16);
    see();
}
static void write_16(void) {
    memcpy(small, bytes, 16);
    see();
}
static void read_4096(void) {
    memcpy(bytes, large, LARGE);
    see();
}
static void write_4096(void) {
    memcpy(large, bytes, LARGE);
    see();
}

static uint16_t next(uint16_t word) { return word + 1; }
static uint16_t (*volatile routine)(uint16_t) = next;
static void run(void) {
    if (routine(6) != 7) exit(1);
}

// The records lie one behind the other; what changed is written, and then a selector, each made to last.
static void commit(void) {
    static uint64_t turn;
    for (int i = 0; i < BATCH; i++) memcpy(records + below(RECORDS) * RECORD, bytes, RECORD);
    turn++;
    off_t at = 512 + (off_t)(turn % 2) * RECORDS * RECORD;
    if (pwrite(file, records, RECORDS * RECORD, at) != RECORDS * RECORD || fdatasync(file)) exit(1);
    if (pwrite(file, &turn, sizeof turn, 0) != sizeof turn || fdatasync(file)) exit(1);
}

int main(void) {
    large = malloc(LARGE);
    small = malloc(RECORD);
    records = malloc(RECORDS * RECORD);
    file = open("plain.data", O_RDWR | O_CREAT | O_TRUNC, 0600);
    if (!large || !small || !records || file < 0 || ftruncate(file, 512 + 2 * RECORDS * RECORD)) return 1;
    memset(large, 1, LARGE);
    memset(small, 1, RECORD);
    memset(records, 1, RECORDS * RECORD);
    measure("make", 500000, make_and_free);
    measure("read_16", 500000, read_16);
    measure("write_16", 500000, write_16);
    measure("read_4096", 50000, read_4096);
    measure("write_4096", 50000, write_4096);
    measure("run", 500000, run);
    measure("commit", 30, commit);
    return 0;
}
