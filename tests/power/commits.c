/* Makes a VM file with the library and commits it so many times. It prints a line when the file is made, and when each commit is done. A third
 * of the commits are made by takhvoi_save, and performed by a close. usage: commits FILE N */
#include "takhvoi.h"
#include <stdio.h>
#include <stdlib.h>

enum { AREA = 1 << 17, REGION = 1 << 20, LEN = 20000, USER_ID = 5 };

/* Ends a function with the answer of a call that was not done. */
#define TRY(call) do { uint32_t status_ = (call); if (status_ != TAKHVOI_DONE) return status_; } while (0)

/* Makes the file with a block that has one chunk. */
static uint32_t make(takhvoi_file *file, const char *path, uint16_t *block) {
    uint16_t chunk;
    TRY(takhvoi_file_create(file, path, AREA, REGION));
    puts("made");
    TRY(takhvoi_vnew(&file->kernel, USER_ID, block));
    TRY(takhvoi_lalloc(&file->kernel, TAKHVOI_VM(*block), LEN, &chunk));
    return takhvoi_unlock(&file->kernel, TAKHVOI_VM(*block));
}

/* Changes two bytes of the chunk. */
static uint32_t change(takhvoi_kernel *kernel, uint16_t block, int n) {
    uint8_t bytes[2] = {(uint8_t)n, (uint8_t)(n * 3)};
    TRY(takhvoi_vlock(kernel, block));
    TRY(takhvoi_vdirty(kernel, block));
    TRY(takhvoi_write(kernel, TAKHVOI_VM(block), 16, (uint16_t)(n * 1501 % (LEN - 1)), bytes, sizeof bytes));
    return takhvoi_unlock(kernel, TAKHVOI_VM(block));
}

static uint32_t commit(takhvoi_file *file, const char *path, int n) {
    uint64_t fault;
    if (n % 3 == 1) return takhvoi_file_update(file);
    if (n % 3 == 2) return takhvoi_file_save(file);
    TRY(takhvoi_save(&file->kernel));
    TRY(takhvoi_file_close(file));
    return takhvoi_file_open(file, path, REGION, &fault);
}

static uint32_t work(takhvoi_file *file, const char *path, int commits) {
    uint16_t block;
    TRY(make(file, path, &block));
    for (int n = 1; n <= commits; n++) {
        TRY(change(&file->kernel, block, n));
        TRY(commit(file, path, n));
        printf("%d\n", n);
    }
    return takhvoi_file_close(file);
}

int main(int argc, char **argv) {
    takhvoi_file file = TAKHVOI_FILE_NONE;
    if (argc != 3) return 2;
    setvbuf(stdout, NULL, _IOLBF, 0);
    uint32_t status = work(&file, argv[1], atoi(argv[2]));
    if (status != TAKHVOI_DONE) fprintf(stderr, "commits: %s\n", takhvoi_error_text(status));
    return status != TAKHVOI_DONE;
}
