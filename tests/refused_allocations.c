/* Makes a VM file with the library, fills and keeps it, runs a routine on it, closes it and opens it again, with each allocation refused in
 * turn. The library then answers that there is no memory, or does all without it: what a commit needs is asked for once more before it
 * begins. It leaves no file where none was made, and goes on well the next time. Then each call that commits, with each of its allocations
 * refused in turn: it prints what is answered. It is linked with --wrap=malloc and --wrap=realloc.
 * usage: refused_allocations FILE */
#include "takhvoi.h"
#include <stdio.h>
#include <stdlib.h>
#include <string.h>
#include <unistd.h>

void *__real_malloc(size_t size);
void *__real_realloc(void *at, size_t size);

/* How many allocations were asked for, and which one is refused; -1 for none. */
static long asked, refused = -1;

static int is_refused(void) {
    return asked++ == refused;
}

void *__wrap_malloc(size_t size) {
    return is_refused() ? NULL : __real_malloc(size);
}

void *__wrap_realloc(void *at, size_t size) {
    return is_refused() ? NULL : __real_realloc(at, size);
}

#define TRY(call) do { uint32_t status_ = (call); if (status_ != TAKHVOI_DONE) return status_; } while (0)

static uint32_t fill(takhvoi_file *file) {
    takhvoi_kernel *k = &file->kernel;
    static const char text[] = "routine next public budget 3\n LDI w1 1\n ADD w0 w0 w1\n RET\n";
    uint8_t image[4096];
    uint16_t handle, chunk, words[8] = {6}, lent[4] = {0}, output[1];
    uint32_t number, rule, count, steps;
    uint64_t told, place;
    TRY(takhvoi_vnew(k, 7, &handle));
    TRY(takhvoi_lalloc(k, TAKHVOI_VM(handle), 100, &chunk));
    TRY(takhvoi_unlock(k, TAKHVOI_VM(handle)));
    TRY(takhvoi_file_save(file));
    TRY(takhvoi_assemble((const uint8_t *)text, strlen(text), image, sizeof image, &told));
    TRY(takhvoi_load(k, image, (size_t)told, &number, &place, &rule));
    TRY(takhvoi_file_run(file, number, 0, words, lent, output, 1, &count, &steps));
    TRY(takhvoi_unload(k, number));
    return words[0] == 7 ? TAKHVOI_DONE : TAKHVOI_FULL;
}

static uint32_t work(const char *path) {
    takhvoi_file file = TAKHVOI_FILE_NONE;
    uint64_t fault;
    unlink(path);
    uint32_t status = takhvoi_file_create(&file, path, 1 << 16, 1 << 16);
    if (status != TAKHVOI_DONE) {
        if (access(path, F_OK) == 0) puts("a file was left");
        return status;
    }
    status = fill(&file);
    takhvoi_file_close(&file);
    if (status != TAKHVOI_DONE) return status;
    TRY(takhvoi_file_open(&file, path, 1 << 16, &fault));
    return takhvoi_file_close(&file);
}

/* A kernel for which this program is the host, with a block, and the image of a routine that commits twice. */
static uint32_t begin(takhvoi_kernel *k, uint32_t *image) {
    static const char text[] = "routine twice public budget 4\n LDI w7 0\n VSAVE x\n VSAVE x\n x: RET\n";
    uint8_t bytes[4096];
    uint16_t handle, chunk;
    uint32_t rule;
    uint64_t told, place;
    TRY(takhvoi_create(k, 1 << 12, 1 << 16));
    TRY(takhvoi_performed(k));
    TRY(takhvoi_vnew(k, 7, &handle));
    TRY(takhvoi_lalloc(k, TAKHVOI_VM(handle), 100, &chunk));
    TRY(takhvoi_unlock(k, TAKHVOI_VM(handle)));
    TRY(takhvoi_assemble((const uint8_t *)text, strlen(text), bytes, sizeof bytes, &told));
    return takhvoi_load(k, bytes, (size_t)told, image, &place, &rule);
}

enum { UPDATE, SAVE, REVERT, RUN };

/* What the call answers, or what its routine was answered. */
static uint32_t commit(takhvoi_kernel *k, uint32_t image, int call) {
    uint16_t words[8] = {0}, lent[4] = {0}, output[1];
    uint32_t count, steps;
    switch (call) {
    case UPDATE: return takhvoi_update(k);
    case SAVE: return takhvoi_save(k);
    case REVERT: return takhvoi_revert(k);
    default:
        TRY(takhvoi_run(k, image, 0, words, lent, output, 1, &count, &steps));
        return words[7] == 0 ? 0 : 1000 + words[7];
    }
}

/* The call with each of its allocations refused: afterwards the kernel is sure of what the file keeps, nothing is noted of what was not begun,
 * and the call is done the next time. Prints what it answers, each number once. */
static void refuse(const char *name, int call) {
    uint32_t last = UINT32_MAX, status;
    printf("%s:", name);
    for (long i = 0, all = 1; i <= all; i++) {
        takhvoi_kernel k = TAKHVOI_NONE;
        uint32_t image = 0;
        uint16_t sure = 0, kind = 3;
        uint64_t at, len;
        if (begin(&k, &image) != TAKHVOI_DONE) printf(" it does not begin");
        asked = 0;
        refused = i;
        status = commit(&k, image, call);
        all = asked;
        refused = -1;
        if (status != last) printf(" %u", (unsigned)status);
        last = status;
        if (takhvoi_is_sure(&k, &sure) != TAKHVOI_DONE || sure != 1) printf(" (unsure)");
        if (takhvoi_step(&k, 0, &kind, &at, &len) != TAKHVOI_DONE || (status == TAKHVOI_MEMORY && kind != 0)) printf(" (noted)");
        if (takhvoi_performed(&k) != TAKHVOI_DONE || commit(&k, image, call) != TAKHVOI_DONE) printf(" (not done)");
        takhvoi_close(&k);
    }
    puts("");
}

int main(int argc, char **argv) {
    if (argc != 2 || work(argv[1]) != TAKHVOI_DONE) return 1;
    long all = asked;
    for (long i = 0; i < all; i++) {
        asked = 0;
        refused = i;
        uint32_t status = work(argv[1]);
        if (status != TAKHVOI_NO_MEMORY && status != TAKHVOI_MEMORY && status != TAKHVOI_DONE)
            printf("allocation %ld: %s\n", i, takhvoi_error_text(status));
        refused = -1;
        if (work(argv[1]) != TAKHVOI_DONE) printf("nothing is done after allocation %ld\n", i);
    }
    puts(all > 0 ? "each allocation was refused" : "none was asked for");
    refuse("update", UPDATE);
    refuse("save", SAVE);
    refuse("revert", REVERT);
    refuse("run", RUN);
    return 0;
}
