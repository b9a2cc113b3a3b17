/* Each pointer of a call is null in turn: the call is refused, and does nothing. For no bytes it may be null.
 * usage: null_pointers, which prints nothing where all is so */
#include "takhvoi.h"
#include <stdio.h>

static int line_of_fault;

#define WANT(status, call) do { if ((call) != (uint32_t)(status) && line_of_fault == 0) line_of_fault = __LINE__; } while (0)
#define REFUSED(call) WANT(TAKHVOI_NULL_POINTER, call)

static void try_texts(void) {
    static const uint8_t text[] = "routine f public budget 1\n RET\n";
    uint8_t image[512];
    uint64_t told = 7;
    REFUSED(takhvoi_assemble(NULL, 1, image, sizeof image, &told));
    REFUSED(takhvoi_assemble(text, sizeof text - 1, NULL, 1, &told));
    REFUSED(takhvoi_assemble(text, sizeof text - 1, image, sizeof image, NULL));
    WANT(7, told);
    WANT(TAKHVOI_SHORT_BUFFER, takhvoi_assemble(text, sizeof text - 1, NULL, 0, &told));
    WANT(TAKHVOI_BAD_IMAGE, takhvoi_assemble(NULL, 0, image, sizeof image, &told));
    WANT(TAKHVOI_BAD_IMAGE, takhvoi_list(NULL, 0, NULL, 0, &told));
    REFUSED(takhvoi_compile(NULL, 1, image, sizeof image, &told));
    REFUSED(takhvoi_explain_source(text, sizeof text - 1, image, sizeof image, &told, NULL, &told));
}

static void try_chunks(takhvoi_kernel *kernel) {
    uint16_t handle = 0, chunk = 0;
    takhvoi_block block;
    uint8_t byte = 1;
    REFUSED(takhvoi_mnew(NULL, &handle));
    REFUSED(takhvoi_mnew(kernel, NULL));
    WANT(TAKHVOI_DONE, takhvoi_mnew(kernel, &handle));
    block = TAKHVOI_MEM(handle);
    WANT(TAKHVOI_DONE, takhvoi_lalloc(kernel, block, 4, &chunk));
    REFUSED(takhvoi_write(kernel, block, chunk, 0, NULL, 1));
    WANT(TAKHVOI_DONE, takhvoi_write(kernel, block, chunk, 0, NULL, 0));
    WANT(TAKHVOI_DONE, takhvoi_read(kernel, block, chunk, 0, NULL, 0));
    REFUSED(takhvoi_read(kernel, block, chunk, 0, NULL, 4));
    REFUSED(takhvoi_read(NULL, block, chunk, 0, &byte, 1));
    WANT(1, byte);
    WANT(TAKHVOI_DONE, takhvoi_unlock(kernel, block));
}

static void try_runs(takhvoi_kernel *kernel) {
    static const uint8_t text[] = "routine f public budget 1\n RET\n";
    uint8_t image[512];
    uint16_t words[8] = {0}, lent[4] = {0};
    uint64_t told, place;
    uint32_t number, rule, count, steps;
    WANT(TAKHVOI_DONE, takhvoi_assemble(text, sizeof text - 1, image, sizeof image, &told));
    REFUSED(takhvoi_load(kernel, image, (size_t)told, NULL, &place, &rule));
    WANT(TAKHVOI_DONE, takhvoi_load(kernel, image, (size_t)told, &number, &place, &rule));
    REFUSED(takhvoi_run(kernel, number, 0, NULL, lent, NULL, 0, &count, &steps));
    REFUSED(takhvoi_run(kernel, number, 0, words, NULL, NULL, 0, &count, &steps));
    WANT(TAKHVOI_DONE, takhvoi_run(kernel, number, 0, words, lent, NULL, 0, &count, &steps));
    WANT(1, steps);
}

int main(void) {
    takhvoi_kernel kernel = TAKHVOI_NONE;
    takhvoi_file file = TAKHVOI_FILE_NONE;
    uint64_t fault;
    REFUSED(takhvoi_new(NULL, 65536, 65536));
    REFUSED(takhvoi_close(NULL));
    REFUSED(takhvoi_file_open(&file, NULL, 65536, &fault));
    REFUSED(takhvoi_file_open(NULL, "a.vm", 65536, &fault));
    REFUSED(takhvoi_file_close(NULL));
    WANT(TAKHVOI_DONE, takhvoi_new(&kernel, 65536, 65536));
    try_texts();
    try_chunks(&kernel);
    try_runs(&kernel);
    WANT(TAKHVOI_DONE, takhvoi_close(&kernel));
    if (line_of_fault != 0) printf("line %d\n", line_of_fault);
    return line_of_fault != 0;
}
