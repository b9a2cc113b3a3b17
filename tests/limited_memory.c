/* A host lets a routine of a stranger have 2,500 bytes beside its own block. The third block of 1,008 bytes is refused 4, and the run goes on.
 * Then the host lets it have blocks only under handles up to 5: the next one is refused 5. */
#include "takhvoi.h"
#include <stdio.h>
#include <stdlib.h>
#include <string.h>

static const char text[] = "routine make public budget 12\n LDI w2 984\n MNEW s0 w1 no\n LALLOC s0 w3 w2 undo\n MUNLOCK s0\n OUT w1 end\n RET\n"
                           "undo: MUNLOCK s0\n MFREE w1 no\n"
                           "no: LDI w1 100\n ADD w7 w7 w1\n OUT w7 end\nend: RET\n";

static void want(uint32_t status, uint32_t wanted, const char *call) {
    if (status == wanted) return;
    printf("%s: %u\n", call, (unsigned)status);
    exit(1);
}
#define DONE(call) want(call, TAKHVOI_DONE, #call)
#define NO_ROOM(call) want(call, TAKHVOI_NO_ROOM, #call)

/* Runs the routine: the word that it puts out. */
static unsigned make(takhvoi_kernel *k, uint32_t image) {
    uint16_t words[8] = {0}, lent[4] = {0}, output[1] = {0};
    uint32_t count, steps;
    DONE(takhvoi_run(k, image, 0, words, lent, output, 1, &count, &steps));
    return output[0];
}

int main(void) {
    static uint8_t bytes[1 << 16];
    takhvoi_kernel k = {0};
    uint32_t image, rule;
    uint64_t told, place;
    uint16_t own, second, chunk;
    unsigned n;
    DONE(takhvoi_new(&k, 1 << 16, 1 << 20));
    DONE(takhvoi_assemble((const uint8_t *)text, strlen(text), bytes, sizeof bytes, &told));
    DONE(takhvoi_load(&k, bytes, (size_t)told, &image, &place, &rule));
    DONE(takhvoi_mnew(&k, &own));
    DONE(takhvoi_lalloc(&k, TAKHVOI_MEM(own), 984, &chunk));
    DONE(takhvoi_limit(&k, 2500));
    printf("own %u, then", own);
    for (n = 0; n < 3; n++) printf(" %u", make(&k, image));
    printf("\n");
    /* 3,024 of 3,508 bytes are in use: a new block of 64 has room, but none of 1,008. */
    DONE(takhvoi_mnew(&k, &second));
    NO_ROOM(takhvoi_lalloc(&k, TAKHVOI_MEM(second), 984, &chunk));
    DONE(takhvoi_limit(&k, 0));
    NO_ROOM(takhvoi_mnew(&k, &second));
    printf("no byte more: %u\n", make(&k, image));
    DONE(takhvoi_limit(&k, UINT32_MAX));
    printf("no limit: %u\n", make(&k, image));
    /* The blocks have the handles 1 to 5, of which the routine has made 2, 3 and 5. */
    DONE(takhvoi_limit_blocks(&k, 5));
    want(takhvoi_mnew(&k, &second), TAKHVOI_NO_HANDLE, "a block above the limit");
    printf("no block more: %u\n", make(&k, image));
    DONE(takhvoi_limit_blocks(&k, 6));
    n = make(&k, image);
    printf("one block more: %u %u\n", n, make(&k, image));
    DONE(takhvoi_limit_blocks(&k, 1024));
    printf("no limit: %u\n", make(&k, image));
    DONE(takhvoi_close(&k));
    want(takhvoi_limit(&k, 0), TAKHVOI_NO_KERNEL, "a closed kernel");
    want(takhvoi_limit_blocks(&k, 0), TAKHVOI_NO_KERNEL, "a closed kernel");
    return 0;
}
