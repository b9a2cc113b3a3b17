/* Two threads with a kernel each: both make, change and free chunks, run a routine, and commit, and each finds what it wrote.
 * usage: library_threads */
#include "takhvoi.h"
#include <pthread.h>
#include <stdio.h>
#include <string.h>

enum { TURNS = 20000, MOST = 64 };

#define TRY(call) do { uint32_t status_ = (call); if (status_ != TAKHVOI_DONE) return status_; } while (0)

/* What a thread is given, and what it finds. */
typedef struct worker {
    uint32_t seed;
    uint32_t status;
    long wrong;
} worker;

static uint32_t load(takhvoi_kernel *kernel, uint32_t *image) {
    static const char text[] = "routine next public budget 3\n LDI w1 1\n ADD w0 w0 w1\n RET\n";
    uint8_t bytes[4096];
    uint64_t told, place;
    uint32_t rule;
    TRY(takhvoi_assemble((const uint8_t *)text, strlen(text), bytes, sizeof bytes, &told));
    return takhvoi_load(kernel, bytes, (size_t)told, image, &place, &rule);
}

/* Runs the routine, which adds 1. */
static uint32_t add_one(takhvoi_kernel *kernel, uint32_t image, uint16_t *word) {
    uint16_t words[8] = {*word}, lent[4] = {0}, output[1];
    uint32_t count, steps;
    TRY(takhvoi_run(kernel, image, 0, words, lent, output, 1, &count, &steps));
    *word = words[0];
    return TAKHVOI_DONE;
}

/* One chunk is made, written, read and freed in a block of the file. */
static uint32_t turn(takhvoi_kernel *kernel, uint16_t handle, worker *it) {
    uint8_t bytes[MOST], found[MOST];
    uint16_t chunk, len = (uint16_t)(it->seed >> 8) % MOST;
    it->seed = it->seed * 1664525u + 1013904223u;
    memset(bytes, (int)(it->seed >> 24), sizeof bytes);
    TRY(takhvoi_vlock(kernel, handle));
    TRY(takhvoi_vdirty(kernel, handle));
    TRY(takhvoi_lalloc(kernel, TAKHVOI_VM(handle), len, &chunk));
    TRY(takhvoi_write(kernel, TAKHVOI_VM(handle), chunk, 0, bytes, len));
    TRY(takhvoi_read(kernel, TAKHVOI_VM(handle), chunk, 0, found, len));
    if (memcmp(bytes, found, len) != 0) it->wrong++;
    TRY(takhvoi_lfree(kernel, TAKHVOI_VM(handle), chunk));
    return takhvoi_unlock(kernel, TAKHVOI_VM(handle));
}

static uint32_t turns(takhvoi_kernel *kernel, worker *it) {
    uint16_t handle, word = 0;
    uint32_t image;
    TRY(takhvoi_new(kernel, 1 << 16, 1 << 20));
    TRY(load(kernel, &image));
    TRY(takhvoi_vnew(kernel, 1, &handle));
    TRY(takhvoi_unlock(kernel, TAKHVOI_VM(handle)));
    for (int i = 0; i < TURNS; i++) {
        TRY(turn(kernel, handle, it));
        TRY(add_one(kernel, image, &word));
        if (i % 100 == 0) TRY(takhvoi_save(kernel));
    }
    if (word != TURNS) it->wrong++;
    return TAKHVOI_DONE;
}

static void *work(void *given) {
    worker *it = given;
    takhvoi_kernel kernel = TAKHVOI_NONE;
    it->status = turns(&kernel, it);
    takhvoi_close(&kernel);
    return NULL;
}

int main(void) {
    worker workers[2] = {{1, 0, 0}, {2, 0, 0}};
    pthread_t threads[2];
    for (int i = 0; i < 2; i++)
        if (pthread_create(&threads[i], NULL, work, &workers[i]) != 0) return 1;
    for (int i = 0; i < 2; i++) pthread_join(threads[i], NULL);
    for (int i = 0; i < 2; i++) printf("thread %d: %s, %ld wrong\n", i + 1, takhvoi_error_text(workers[i].status), workers[i].wrong);
    return 0;
}
