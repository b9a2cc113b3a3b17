/* What calls of the library show a debugger or an editor, against what other calls tell. Prints what it finds. */
#include "takhvoi.h"
#include <stdio.h>
#include <stdlib.h>
#include <string.h>

static void want(uint32_t status, uint32_t wanted, const char *call) {
    if (status == wanted) return;
    printf("%s: %u\n", call, (unsigned)status);
    exit(1);
}
#define DONE(call) want(call, TAKHVOI_DONE, #call)

static void check(int holds, const char *what) {
    if (!holds) printf("not so: %s\n", what);
}

/* Two blocks of memory, of which the first is not locked and has two chunks, and a block of the file with one. */
static void fill(takhvoi_kernel *k) {
    uint16_t block, chunk;
    DONE(takhvoi_mnew(k, &block));
    DONE(takhvoi_lalloc(k, TAKHVOI_MEM(1), 5, &chunk));
    DONE(takhvoi_write(k, TAKHVOI_MEM(1), 16, 0, (const uint8_t *)"Curie", 5));
    DONE(takhvoi_lalloc(k, TAKHVOI_MEM(1), 0, &chunk));
    DONE(takhvoi_unlock(k, TAKHVOI_MEM(1)));
    DONE(takhvoi_mnew(k, &block));
    DONE(takhvoi_vnew(k, 7, &block));
    DONE(takhvoi_lalloc(k, TAKHVOI_VM(1), 3, &chunk));
    DONE(takhvoi_vlock(k, 1));
}

static void places(takhvoi_kernel *k) {
    takhvoi_place into[4] = {{{9}, 9, 9, 9}};
    uint32_t count, n, seen = 0;
    DONE(takhvoi_places(k, into, 4, &count));
    printf("%u blocks:", (unsigned)count);
    for (n = 0; n < count && n < 4; n++) {
        uint16_t locks;
        DONE(takhvoi_locks(k, into[n].block, &locks));
        check(locks == into[n].locks, "locks of a block");
        check(into[n].size >= 64 && into[n].size % 16 == 0, "the size of a block");
        check(n == 0 || into[n - 1].at + into[n - 1].size <= into[n].at, "blocks are in order and apart");
        check(into[n].at + into[n].size <= 65536, "a block is in the region");
        seen += into[n].block.number;
    }
    printf(" numbers %u together\n", (unsigned)seen);
    memset(into, 1, sizeof into);
    DONE(takhvoi_places(k, into, 1, &count));
    check(count == 3 && into[1].at == 0x01010101, "as many as there is room for");
    DONE(takhvoi_places(k, NULL, 0, &count));
    want(takhvoi_places(k, NULL, 1, &count), TAKHVOI_NULL_POINTER, "no buffer");
}

static void chunks(takhvoi_kernel *k) {
    takhvoi_chunk into[4];
    uint8_t bytes[6] = "......";
    uint32_t count;
    DONE(takhvoi_chunks(k, TAKHVOI_MEM(1), into, 4, &count));
    printf("%u chunks: %u of %u bytes, %u of %u\n", (unsigned)count, (unsigned)into[0].handle, (unsigned)into[0].len, (unsigned)into[1].handle,
           (unsigned)into[1].len);
    DONE(takhvoi_region(k, into[0].at, bytes, 5));
    printf("the region has %.6s\n", (const char *)bytes);
    want(takhvoi_region(k, 65536 - 4, bytes, 5), TAKHVOI_BAD_SIZE, "past the region");
    want(takhvoi_region(k, 70000, bytes, 0), TAKHVOI_BAD_SIZE, "an offset past the region");
    DONE(takhvoi_region(k, 65536, NULL, 0));
    check(!memcmp(bytes, "Curie.", 6), "a buffer is left");
    DONE(takhvoi_chunks(k, TAKHVOI_VM(1), into, 4, &count));
    printf("in the file %u of %u bytes\n", (unsigned)into[0].handle, (unsigned)into[0].len);
    want(takhvoi_chunks(k, TAKHVOI_MEM(3), into, 4, &count), TAKHVOI_BAD_HANDLE, "chunks of no block");
    want(takhvoi_chunks(k, TAKHVOI_VM(1024), into, 4, &count), TAKHVOI_BAD_HANDLE, "chunks of no block of the file");
}

static void entries(takhvoi_kernel *k) {
    takhvoi_entry into[4];
    uint32_t count;
    DONE(takhvoi_entries(k, into, 4, &count));
    printf("%u entry: handle %u, user ID %u, %u bytes, in memory %u, marked %u, locked %u times\n", (unsigned)count, (unsigned)into[0].handle,
           (unsigned)into[0].user_id, (unsigned)into[0].size, (unsigned)into[0].in_memory, (unsigned)into[0].marked, (unsigned)into[0].locks);
}

static const char two[] = "; two routines\nroutine inner budget 1\n RET\n\nroutine outer public budget 9\n in w0<=7\n"
                          "  LDI w1 5\n  ADD w2 w0 w1\n  OUT w2 x\nx:\n  RET\n";

static uint32_t load(takhvoi_kernel *k, const char *text) {
    static uint8_t image[4096];
    uint64_t len, place;
    uint32_t number, rule;
    DONE(takhvoi_assemble((const uint8_t *)text, strlen(text), image, sizeof image, &len));
    DONE(takhvoi_load(k, image, (size_t)len, &number, &place, &rule));
    return number;
}

static void routines(takhvoi_kernel *k, uint32_t image) {
    takhvoi_routine_entry into[3];
    uint32_t count, n;
    DONE(takhvoi_routines(k, image, into, 3, &count));
    for (n = 0; n < count; n++) {
        printf("%.16s: public %u, first %u, length %u, budget %u, w0<=%u w1<=%u, s0 %u\n", (const char *)into[n].name, (unsigned)into[n].is_public,
               (unsigned)into[n].first, (unsigned)into[n].length, (unsigned)into[n].budget, into[n].bounds[0], into[n].bounds[1], into[n].slots[0]);
    }
    want(takhvoi_routines(k, image + 1, into, 3, &count), TAKHVOI_NOT_ADMITTED, "routines of no image");
}

static void lines(void) {
    uint32_t into[8], n;
    uint64_t told;
    DONE(takhvoi_lines((const uint8_t *)two, strlen(two), into, 8, &told));
    printf("lines:");
    for (n = 0; n < told; n++) printf(" %u", (unsigned)into[n]);
    printf("\n");
    want(takhvoi_lines((const uint8_t *)"routine f budget 1\n RET w0\n", 27, into, 8, &told), TAKHVOI_BAD_IMAGE, "a faulty line");
    printf("a fault in line %u\n", (unsigned)told);
}

static void findings(const char *what, const char *text, const char *holds) {
    takhvoi_finding into[8];
    uint8_t said[4096];
    uint32_t count, n;
    uint64_t told;
    const uint8_t *bytes = (const uint8_t *)text;
    DONE(takhvoi_findings(bytes, strlen(text), into, 8, &count, said, sizeof said - 1, &told));
    said[told] = 0;
    printf("%s:", what);
    for (n = 0; n < count; n++) {
        printf(" kind %u, line %u, column %u, rule %u, routine %u, instruction %u", (unsigned)into[n].kind, (unsigned)into[n].line,
               (unsigned)into[n].column, (unsigned)into[n].rule, (unsigned)into[n].routine, (unsigned)into[n].instruction);
        check(into[n].from + (uint64_t)into[n].len <= told, "a sentence is one of those that are told");
    }
    printf("\n");
    check(strstr((const char *)said, holds) != NULL, holds);
    if (count == 0) return;
    memset(said, 1, sizeof said);
    want(takhvoi_findings(bytes, strlen(text), into, 8, &count, said, (size_t)told - 1, &told), TAKHVOI_SHORT_BUFFER, "a byte too few");
    want(takhvoi_findings(bytes, strlen(text), NULL, 0, &count, said, sizeof said, &told), TAKHVOI_SHORT_BUFFER, "no room for findings");
    check(said[0] == 1 && count > 0 && told > 0, "with too little room the buffers are left");
}

/* The states of a run, and memory in it: the routine makes a block, and a chunk of three bytes to which p0 leads. */
static const char makes[] = "routine makes public budget 9\n  MNEW s0 w1 x\n  LDI w2 3\n  LALLOC s0 w3 w2 y\n  DEREF s0 p0 w3 3 y\n"
                            "  STB w2 p0 2\ny:\n  MUNLOCK s0\nx:\n  RET\n";

static void traces(takhvoi_kernel *k) {
    takhvoi_state into[12];
    takhvoi_place places[8];
    static uint8_t region[65536];
    uint16_t words[8] = {0}, again[8] = {0}, lent[4] = {0}, output[1];
    uint32_t count, steps, n, image = load(k, makes);
    DONE(takhvoi_trace(k, image, 0, words, lent, output, 1, &count, &steps, 0, into, 12));
    printf("%u steps:", (unsigned)steps);
    for (n = 0; n < steps; n++) printf(" %u/%x/%x", (unsigned)into[n].instruction, into[n].held, into[n].good);
    printf("\n");
    check(into[1].words[1] == words[1] && into[0].words[1] == 0, "the word of the new block");
    check(into[4].spans[0] == 3 && into[4].slots[0].number == words[1], "the pointer and the slot");
    memset(into, 1, sizeof into);
    DONE(takhvoi_trace(k, image, 0, again, lent, output, 1, &count, &steps, 4, into, 2));
    check(into[0].instruction == 4 && into[1].instruction == 5 && into[2].instruction == 0x01010101, "from the fifth step on, two of them");
    DONE(takhvoi_memory_at(k, image, 0, again, lent, 5, places, 8, &count, region, sizeof region));
    check(count == 3, "three blocks before the sixth step");
    check(region[into[0].pointers[0] + 2] == 3, "the byte that was stored");
    DONE(takhvoi_memory_at(k, image, 0, again, lent, 99, places, 8, &count, region, sizeof region));
    check(count == 0, "no such step");
    want(takhvoi_trace(k, image, 1, again, lent, output, 1, &count, &steps, 0, into, 12), TAKHVOI_NOT_ADMITTED, "no such routine");
}

int main(void) {
    takhvoi_kernel k = TAKHVOI_NONE;
    uint32_t count;
    want(takhvoi_places(&k, NULL, 0, &count), TAKHVOI_NO_KERNEL, "no kernel");
    DONE(takhvoi_new(&k, 1 << 16, 65536));
    fill(&k);
    places(&k);
    chunks(&k);
    entries(&k);
    routines(&k, load(&k, two));
    DONE(takhvoi_close(&k));
    lines();
    findings("accepted", two, "");
    findings("faulty", "; a comment\nroutine f public budget 1\n  ldi w0 5\n", "say LDI");
    findings("no rows", "\nroutine f public budget 9\nagain:\n JMP again\n", "loop");
    findings("refused", "routine f budget 9\n in s0=mem p0=s0:8\n LFREE s0 w0 x\n\n STW w0 p0 0\nx: MUNLOCK s0\n RET\n", "p0 may be stale");
    DONE(takhvoi_new(&k, 1 << 16, 65536));
    traces(&k);
    DONE(takhvoi_close(&k));
    return 0;
}
