// The library: a block with chunks of 64 and 4,096 bytes, a routine of three instructions, and a file of which records are committed.
#include "measure.h"
#include "takhvoi.h"

static takhvoi_kernel kernel = TAKHVOI_NONE;
static takhvoi_file kept = TAKHVOI_FILE_NONE;
static uint16_t block, of_file, large, record, records, chunks[RECORDS];
static uint32_t image;
static uint8_t bytes[LARGE];

static void must(uint32_t status) {
    if (status == TAKHVOI_DONE) return;
    fprintf(stderr, "library: %s\n", takhvoi_error_text(status));
    exit(1);
}

static void lock(void) {
    must(takhvoi_mlock(&kernel, block));
    must(takhvoi_unlock(&kernel, TAKHVOI_MEM(block)));
}
static void lock_of_file(void) {
    must(takhvoi_vlock(&kernel, of_file));
    must(takhvoi_unlock(&kernel, TAKHVOI_VM(of_file)));
}
static void read_16(void) { must(takhvoi_read(&kernel, TAKHVOI_MEM(block), record, 0, bytes, 16)); }
static void write_16(void) { must(takhvoi_write(&kernel, TAKHVOI_MEM(block), record, 0, bytes, 16)); }
static void read_4096(void) { must(takhvoi_read(&kernel, TAKHVOI_MEM(block), large, 0, bytes, LARGE)); }
static void write_4096(void) { must(takhvoi_write(&kernel, TAKHVOI_MEM(block), large, 0, bytes, LARGE)); }
static void make_and_free(void) {
    uint16_t chunk;
    must(takhvoi_lalloc(&kernel, TAKHVOI_MEM(block), 16, &chunk));
    must(takhvoi_lfree(&kernel, TAKHVOI_MEM(block), chunk));
}

static void run(void) {
    uint16_t words[8] = {6}, lent[4] = {0}, output[1];
    uint32_t count, steps;
    must(takhvoi_run(&kernel, image, 0, words, lent, output, 1, &count, &steps));
    if (words[0] != 7) exit(1);
}

static void commit(void) {
    must(takhvoi_vlock(&kept.kernel, records));
    must(takhvoi_vdirty(&kept.kernel, records));
    for (int i = 0; i < BATCH; i++) must(takhvoi_write(&kept.kernel, TAKHVOI_VM(records), chunks[below(RECORDS)], 0, bytes, RECORD));
    must(takhvoi_unlock(&kept.kernel, TAKHVOI_VM(records)));
    must(takhvoi_file_update(&kept));
}

static void load(void) {
    static const char text[] = "routine next public budget 3\n LDI w1 1\n ADD w0 w0 w1\n RET\n";
    uint8_t made[4096];
    uint64_t told, place;
    uint32_t rule;
    must(takhvoi_assemble((const uint8_t *)text, strlen(text), made, sizeof made, &told));
    must(takhvoi_load(&kernel, made, (size_t)told, &image, &place, &rule));
}

static void make_records(void) {
    must(takhvoi_file_create(&kept, "library.vm", 1 << 17, 1 << 20));
    must(takhvoi_vnew(&kept.kernel, 1, &records));
    for (int i = 0; i < RECORDS; i++) must(takhvoi_lalloc(&kept.kernel, TAKHVOI_VM(records), RECORD, &chunks[i]));
    must(takhvoi_unlock(&kept.kernel, TAKHVOI_VM(records)));
    must(takhvoi_file_save(&kept));
}

int main(void) {
    must(takhvoi_new(&kernel, 1 << 16, 1 << 20));
    must(takhvoi_mnew(&kernel, &block));
    must(takhvoi_lalloc(&kernel, TAKHVOI_MEM(block), LARGE, &large));
    must(takhvoi_lalloc(&kernel, TAKHVOI_MEM(block), RECORD, &record));
    must(takhvoi_vnew(&kernel, 1, &of_file));
    must(takhvoi_unlock(&kernel, TAKHVOI_VM(of_file)));
    load();
    make_records();
    measure("lock", 500000, lock);
    measure("lock_of_file", 500000, lock_of_file);
    measure("make", 500000, make_and_free);
    measure("read_16", 500000, read_16);
    measure("write_16", 500000, write_16);
    measure("read_4096", 50000, read_4096);
    measure("write_4096", 50000, write_4096);
    measure("run", 200000, run);
    measure("commit", 30, commit);
    takhvoi_file_close(&kept);
    return takhvoi_close(&kernel) == TAKHVOI_DONE ? 0 : 1;
}
