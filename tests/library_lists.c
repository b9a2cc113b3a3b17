/* What calls of the library list, and what they say of texts. Prints what it finds. */
#include "takhvoi.h"
#include <stdio.h>
#include <stdlib.h>
#include <string.h>

static void want(uint32_t status, uint32_t wanted, const char *call) {
    if (status == wanted) return;
    printf("%s: %u\n", call, (unsigned)status);
    exit(1);
}
#define DONE(call) want(call, TAKHVOI_DONE, #call)

/* Prints a list of which as many as `room` came into a buffer of sixteen, and how much of its rest was left alone. */
static void print(const char *what, uint32_t count, const uint16_t *into, size_t room) {
    size_t n, kept = 0, came = count < room ? count : room;
    printf("%s: %u:", what, (unsigned)count);
    for (n = 0; n < came; n++) printf(" %u", into[n]);
    for (n = came; n < 16; n++) kept += into[n] == 0xabcd;
    printf("%s\n", kept == 16 - came ? "" : ", and wrote past them");
}

#define LIST(what, room, call)                                                                                                                        \
    do {                                                                                                                                              \
        for (n = 0; n < 16; n++) into[n] = 0xabcd;                                                                                                    \
        DONE(call);                                                                                                                                   \
        print(what, count, into, room);                                                                                                               \
    } while (0)

static void lists(takhvoi_kernel *k) {
    uint16_t into[16], block, other, file, group, empty, item, len, n;
    uint32_t count;
    LIST("no block", 16, takhvoi_mlist(k, into, 16, &count));
    LIST("no block of the file", 16, takhvoi_vlist(k, into, 16, &count));
    for (n = 0; n < 4; n++) DONE(takhvoi_mnew(k, &block));
    DONE(takhvoi_unlock(k, TAKHVOI_MEM(2)));
    DONE(takhvoi_unlock(k, TAKHVOI_MEM(4)));
    DONE(takhvoi_mfree(k, 2));
    LIST("blocks", 16, takhvoi_mlist(k, into, 16, &count));
    LIST("two of them", 2, takhvoi_mlist(k, into, 2, &count));
    DONE(takhvoi_mlist(k, NULL, 0, &count));
    printf("none of %u\n", (unsigned)count);
    DONE(takhvoi_locks(k, TAKHVOI_MEM(1), &len));
    DONE(takhvoi_locks(k, TAKHVOI_MEM(4), &other));
    printf("locked %u and %u times\n", len, other);

    LIST("no chunk", 16, takhvoi_llist(k, TAKHVOI_MEM(1), into, 16, &count));
    for (n = 0; n < 3; n++) DONE(takhvoi_lalloc(k, TAKHVOI_MEM(1), 10, &item));
    DONE(takhvoi_lfree(k, TAKHVOI_MEM(1), 18));
    LIST("chunks", 16, takhvoi_llist(k, TAKHVOI_MEM(1), into, 16, &count));
    LIST("one of them", 1, takhvoi_llist(k, TAKHVOI_MEM(1), into, 1, &count));
    want(takhvoi_llist(k, TAKHVOI_MEM(4), into, 16, &count), TAKHVOI_NOT_LOCKED, "chunks of a block that is not locked");
    want(takhvoi_llist(k, TAKHVOI_MEM(2), into, 16, &count), TAKHVOI_NOT_LOCKED, "chunks of no block");

    DONE(takhvoi_vnew(k, 7, &file));
    DONE(takhvoi_gnew(k, &group));
    DONE(takhvoi_gnew(k, &empty));
    DONE(takhvoi_lalloc(k, TAKHVOI_VM(file), 3, &item));
    for (n = 0; n < 3; n++) DONE(takhvoi_inew(k, group, n, &item));
    DONE(takhvoi_ifree(k, group, 16));
    LIST("blocks and groups of the file", 16, takhvoi_vlist(k, into, 16, &count));
    DONE(takhvoi_vuid(k, group, &len));
    printf("a group has the user ID %u\n", len);
    if (len != TAKHVOI_GROUP_ID) printf("which is not TAKHVOI_GROUP_ID\n");
    LIST("items", 16, takhvoi_ilist(k, group, into, 16, &count));
    LIST("items of an empty group", 16, takhvoi_ilist(k, empty, into, 16, &count));
    want(takhvoi_ilist(k, file, into, 16, &count), TAKHVOI_BAD_HANDLE, "items of a block");
    want(takhvoi_ilist(k, 9, into, 16, &count), TAKHVOI_BAD_HANDLE, "items of nothing");
    DONE(takhvoi_locks(k, TAKHVOI_VM(group), &len));
    printf("the group is locked %u times\n", len);
    DONE(takhvoi_unlock(k, TAKHVOI_VM(file)));
    DONE(takhvoi_save(k));
    LIST("items after a commit", 16, takhvoi_ilist(k, group, into, 16, &count));
    DONE(takhvoi_marked(k, group, &len));
    printf("the group is marked: %u\n", len);
    want(takhvoi_ilist(k, group, NULL, 1, &count), TAKHVOI_NULL_POINTER, "no buffer");
}

static void explains(const char *what, const char *text, const char *holds) {
    static uint8_t into[4096];
    uint64_t told, line, column, wanted;
    size_t len = strlen(text), n;
    memset(into, 1, sizeof into);
    DONE(takhvoi_explain_text((const uint8_t *)text, len, into, sizeof into - 1, &told, &line, &column));
    for (n = (size_t)told; n < sizeof into; n++) {
        if (into[n] != 1) printf("it wrote past what it told\n");
    }
    into[told] = 0;
    printf("%s: line %u column %u, %s\n", what, (unsigned)line, (unsigned)column, strstr((char *)into, holds) ? holds : (char *)into);
    wanted = told;
    memset(into, 1, sizeof into);
    line = column = 99;
    want(takhvoi_explain_text((const uint8_t *)text, len, into, (size_t)wanted - 1, &told, &line, &column), TAKHVOI_SHORT_BUFFER, "a byte too few");
    if (told != wanted || into[0] != 1 || line == 99 || column == 99) printf("with too little room it tells something else\n");
}

static void texts(void) {
    static uint8_t image[4096], into[4096];
    const char *stale = "routine f budget 9\n in s0=mem p0=s0:8\n LFREE s0 w0 x\n\n STW w0 p0 0\nx: MUNLOCK s0\n RET\n";
    uint64_t len, told, place;
    uint32_t number, rule;
    size_t n;
    takhvoi_kernel k = TAKHVOI_NONE;
    explains("accepted", "routine f public budget 1\n RET\n", "RET");
    explains("faulty", "; a comment\nroutine f public budget 1\n  ldi w0 5\n", "say LDI");
    explains("no rows", "\nroutine f public budget 9\nagain:\n JMP again\n", "loop");
    explains("refused", stale, "p0 may be stale");
    DONE(takhvoi_assemble((const uint8_t *)stale, strlen(stale), image, sizeof image, &len));
    DONE(takhvoi_new(&k, 512, 65536));
    want(takhvoi_load(&k, image, (size_t)len, &number, &place, &rule), TAKHVOI_REFUSED, "a stale pointer");
    printf("instruction %u by rule %u\n", (unsigned)place, (unsigned)rule);
    DONE(takhvoi_close(&k));
    memset(into, 1, sizeof into);
    DONE(takhvoi_explain(image, (size_t)len, into, sizeof into, &told));
    for (n = (size_t)told; n < sizeof into; n++) {
        if (into[n] != 1) printf("it wrote past what it told\n");
    }
    printf("an image is explained in %s\n", told > 0 && into[told - 1] == '\n' ? "lines" : "no line");
}

static void source_faults(const char *source, uint64_t at_line, uint64_t at_column, const char *holds) {
    static uint8_t into[4096];
    uint64_t told, line, column, wanted;
    size_t len = strlen(source);
    want(takhvoi_compile((const uint8_t *)source, len, into, sizeof into, &told), TAKHVOI_BAD_IMAGE, "a faulty source");
    if (told != at_line) printf("another line: %u\n", (unsigned)told);
    memset(into, 1, sizeof into);
    DONE(takhvoi_explain_source((const uint8_t *)source, len, into, sizeof into - 1, &wanted, &line, &column));
    if (into[wanted] != 1 || into[wanted - 1] != '\n') printf("it wrote past what it told, or no line\n");
    into[wanted] = 0;
    if (line != at_line || column != at_column || !strstr((char *)into, holds)) printf("%u:%u: %s", (unsigned)line, (unsigned)column, into);
    memset(into, 1, sizeof into);
    line = 99;
    want(takhvoi_explain_source((const uint8_t *)source, len, into, (size_t)wanted - 1, &told, &line, &column), TAKHVOI_SHORT_BUFFER, "a byte too few");
    if (told != wanted || into[0] != 1 || line != at_line) printf("with too little room it tells something else\n");
}

static void sources(void) {
    static uint8_t image[4096];
    const char *twice = "use std;\npub fn twice(n) { out(mul(n, 2))?; }\n";
    uint64_t len, told, line = 9, column = 9;
    uint32_t number, rule, count, steps;
    uint16_t routine, words[8] = {21}, lent[4] = {0}, put = 0;
    takhvoi_kernel k = TAKHVOI_NONE;
    DONE(takhvoi_compile((const uint8_t *)twice, strlen(twice), image, sizeof image, &len));
    want(takhvoi_compile((const uint8_t *)twice, strlen(twice), image, 9, &told), TAKHVOI_SHORT_BUFFER, "an image in nine bytes");
    if (told != len) printf("with too little room it tells something else\n");
    DONE(takhvoi_explain_source((const uint8_t *)twice, strlen(twice), NULL, 0, &told, &line, &column));
    if (told || line || column) printf("a fault of a source without one\n");
    DONE(takhvoi_new(&k, 512, 65536));
    DONE(takhvoi_load(&k, image, (size_t)len, &number, &told, &rule));
    DONE(takhvoi_routine(&k, number, (const uint8_t *)"twice", 5, &routine));
    DONE(takhvoi_run(&k, number, routine, words, lent, &put, 1, &count, &steps));
    printf("a source is compiled, and outputs %u\n", put);
    DONE(takhvoi_close(&k));
    source_faults("pub fn f() {\n    out(n)?;\n}\n", 2, 9, "n");
    source_faults("pub fn f() {\n    let b = mnew()? {\n", 2, 21, "");
    source_faults("use \"other.tkv\";\n", 1, 5, "std");
    source_faults("", 1, 1, "routine");
}

int main(void) {
    takhvoi_kernel k = TAKHVOI_NONE;
    DONE(takhvoi_new(&k, 1 << 16, 1 << 20));
    lists(&k);
    DONE(takhvoi_close(&k));
    texts();
    sources();
    return 0;
}
