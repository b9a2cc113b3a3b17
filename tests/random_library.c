/* Makes so many calls of the library, as a generator of fixed numbers has it, beside a model in C that has the locks, the marks and the
 * bytes of each chunk: what each call answers, and all bytes, are compared. Now and then the VM file is committed, reverted, or closed and
 * opened again. The last line says how many calls were done, and how many were refused. usage: random_library FILE CALLS */
#include "takhvoi.h"
#include <stdio.h>
#include <stdlib.h>
#include <string.h>

enum { BLOCKS = 20, CHUNKS = 10, LONGEST = 400, AREA = 1 << 17, REGION = 1 << 16, EVERY = 2000 };

/* A chunk that is there has a length from 0 on. */
typedef struct chunk {
    int len;
    uint8_t bytes[LONGEST];
} chunk;

typedef struct block {
    int is_there, is_marked;
    uint16_t locks, user_id;
    chunk chunks[CHUNKS];
} block;

/* The blocks of an owner by their handles, and the map block. */
typedef struct blocks {
    block at[BLOCKS + 1];
    uint16_t map;
} blocks;

static blocks memory, file, updated, saved;
static takhvoi_file on = TAKHVOI_FILE_NONE;
static const char *path;
static long calls, done, refused;
static uint32_t seed = 1;

static uint32_t below(uint32_t bound) {
    seed = seed * 1664525u + 1013904223u;
    return (seed >> 8) % bound;
}

static void fail(const char *what, uint32_t status, uint32_t wanted) {
    printf("call %ld, %s: %s, wanted: %s\n", calls, what, takhvoi_error_text(status), takhvoi_error_text(wanted));
    exit(1);
}

/* Whether the call was done. Where there has to be room for it, it may be refused for that alone. */
static int is_done(const char *what, uint32_t status, uint32_t wanted, int needs_room) {
    if (status != wanted && !(needs_room && wanted == TAKHVOI_DONE && status == TAKHVOI_NO_ROOM)) fail(what, status, wanted);
    if (status == TAKHVOI_DONE) done++;
    else refused++;
    return status == TAKHVOI_DONE;
}

static void want(const char *what, int holds) {
    if (holds) return;
    printf("call %ld: another %s\n", calls, what);
    exit(1);
}

/* A call's block: its owner, its handle, and what the model has of it; the handle is one too high now and then. */
typedef struct target {
    int of_file;
    uint16_t handle;
    block *block;
    takhvoi_block name;
} target;

static target any(void) {
    static block none;
    target it = {(int)below(2), (uint16_t)below(BLOCKS + 2), &none, TAKHVOI_MEM(0)};
    if (it.handle <= BLOCKS) it.block = &(it.of_file ? &file : &memory)->at[it.handle];
    it.name = it.of_file ? TAKHVOI_VM(it.handle) : TAKHVOI_MEM(it.handle);
    return it;
}

/* What the library says of a block whose chunks are read, or changed. */
static uint32_t readable(target it) {
    return it.block->locks ? TAKHVOI_DONE : TAKHVOI_NOT_LOCKED;
}
static uint32_t writable(target it) {
    return !it.block->locks ? TAKHVOI_NOT_LOCKED : it.of_file && !it.block->is_marked ? TAKHVOI_NOT_MARKED : TAKHVOI_DONE;
}

static uint16_t chunk_handle(int index) {
    return (uint16_t)(16 + 2 * index);
}

static void make_block(int of_file) {
    blocks *all = of_file ? &file : &memory;
    uint16_t handle = 0, user_id = (uint16_t)below(3);
    int lowest = 1;
    while (lowest <= BLOCKS && all->at[lowest].is_there) lowest++;
    if (lowest > BLOCKS) return;
    uint32_t status = of_file ? takhvoi_vnew(&on.kernel, user_id, &handle) : takhvoi_mnew(&on.kernel, &handle);
    if (!is_done("make a block", status, TAKHVOI_DONE, 1)) return;
    want("handle", handle == lowest);
    block *made = &all->at[handle];
    memset(made, 0, sizeof *made);
    made->is_there = made->locks = 1;
    made->is_marked = of_file;
    made->user_id = of_file ? user_id : 0;
    for (int c = 0; c < CHUNKS; c++) made->chunks[c].len = -1;
}

static void lock(target it) {
    uint32_t status = it.of_file ? takhvoi_vlock(&on.kernel, it.handle) : takhvoi_mlock(&on.kernel, it.handle);
    int needs_room = it.of_file && !it.block->locks;
    if (is_done("lock", status, it.block->is_there ? TAKHVOI_DONE : TAKHVOI_BAD_HANDLE, needs_room)) it.block->locks++;
}

static void unlock(target it) {
    if (is_done("unlock", takhvoi_unlock(&on.kernel, it.name), readable(it), 0)) it.block->locks--;
}

static void free_block(target it) {
    uint32_t status = it.of_file ? takhvoi_vfree(&on.kernel, it.handle) : takhvoi_mfree(&on.kernel, it.handle);
    uint32_t wanted = !it.block->is_there ? TAKHVOI_BAD_HANDLE : it.block->locks ? TAKHVOI_LOCKED : TAKHVOI_DONE;
    if (!is_done("free a block", status, wanted, 0)) return;
    it.block->is_there = it.block->is_marked = 0;
    if (it.of_file && file.map == it.handle) file.map = 0;
}

static void mark(target it) {
    if (!it.of_file) return;
    if (is_done("mark", takhvoi_vdirty(&on.kernel, it.handle), readable(it), 0)) it.block->is_marked = 1;
}

static void set_map(target it) {
    if (!it.of_file) return;
    uint32_t wanted = it.block->is_there || it.handle == 0 ? TAKHVOI_DONE : TAKHVOI_BAD_HANDLE;
    if (is_done("name the map block", takhvoi_vsetmap(&on.kernel, it.handle), wanted, 0)) file.map = it.handle;
}

static void find(target it) {
    uint16_t user_id = (uint16_t)below(4), found = 0, wanted = 0;
    for (int h = BLOCKS; h > it.handle; h--)
        if (file.at[h].is_there && file.at[h].user_id == user_id) wanted = (uint16_t)h;
    is_done("find", takhvoi_vfind(&on.kernel, it.handle, user_id, &found), TAKHVOI_DONE, 0);
    want("block found", found == wanted);
}

static void make_chunk(target it) {
    uint16_t len = (uint16_t)below(LONGEST), handle = 0;
    int lowest = 0;
    while (it.block->locks && lowest < CHUNKS && it.block->chunks[lowest].len >= 0) lowest++;
    if (lowest == CHUNKS) return;
    if (!is_done("make a chunk", takhvoi_lalloc(&on.kernel, it.name, len, &handle), writable(it), 1)) return;
    want("chunk", handle == chunk_handle(lowest));
    it.block->chunks[lowest].len = len;
    memset(it.block->chunks[lowest].bytes, 0, len);
}

/* What is said of a chunk, where its block lets it be used. */
static uint32_t chunk_status(uint32_t status, const chunk *it) {
    return status != TAKHVOI_DONE ? status : it->len < 0 ? TAKHVOI_BAD_CHUNK : TAKHVOI_DONE;
}

static void resize(target it, int index, chunk *c) {
    uint16_t len = (uint16_t)below(LONGEST);
    uint32_t status = takhvoi_lrealloc(&on.kernel, it.name, chunk_handle(index), len);
    if (!is_done("resize", status, chunk_status(writable(it), c), 1)) return;
    if (len > c->len) memset(c->bytes + c->len, 0, (size_t)(len - c->len));
    c->len = len;
}

static void insert_bytes(target it, int index, chunk *c) {
    uint16_t at = (uint16_t)below(LONGEST), len = (uint16_t)below(40);
    if (c->len + len > LONGEST) return;
    uint32_t wanted = chunk_status(writable(it), c);
    if (wanted == TAKHVOI_DONE && at > c->len) wanted = TAKHVOI_RANGE;
    if (!is_done("insert", takhvoi_lins(&on.kernel, it.name, chunk_handle(index), at, len), wanted, 1)) return;
    memmove(c->bytes + at + len, c->bytes + at, (size_t)(c->len - at));
    memset(c->bytes + at, 0, len);
    c->len += len;
}

static void delete_bytes(target it, int index, chunk *c) {
    uint16_t at = (uint16_t)below(LONGEST), len = (uint16_t)below(40);
    uint32_t wanted = chunk_status(writable(it), c);
    if (wanted == TAKHVOI_DONE && at + len > c->len) wanted = TAKHVOI_RANGE;
    if (!is_done("delete", takhvoi_ldel(&on.kernel, it.name, chunk_handle(index), at, len), wanted, 0)) return;
    memmove(c->bytes + at, c->bytes + at + len, (size_t)(c->len - at - len));
    c->len -= len;
}

static void write_bytes(target it, int index, chunk *c) {
    uint8_t bytes[LONGEST];
    uint16_t at = (uint16_t)below(LONGEST), len = (uint16_t)below(LONGEST / 2);
    for (int i = 0; i < len; i++) bytes[i] = (uint8_t)below(256);
    uint32_t wanted = chunk_status(writable(it), c);
    if (wanted == TAKHVOI_DONE && at + len > c->len) wanted = TAKHVOI_SHORT;
    if (is_done("write", takhvoi_write(&on.kernel, it.name, chunk_handle(index), at, bytes, len), wanted, 0)) memcpy(c->bytes + at, bytes, len);
}

static void read_bytes(target it, int index, chunk *c) {
    uint8_t bytes[LONGEST];
    uint16_t at = (uint16_t)below(LONGEST), len = (uint16_t)below(LONGEST / 2);
    uint32_t wanted = chunk_status(readable(it), c);
    if (wanted == TAKHVOI_DONE && at + len > c->len) wanted = TAKHVOI_SHORT;
    if (is_done("read", takhvoi_read(&on.kernel, it.name, chunk_handle(index), at, bytes, len), wanted, 0))
        want("byte", memcmp(bytes, c->bytes + at, len) == 0);
}

static void free_chunk(target it, int index, chunk *c) {
    if (is_done("free a chunk", takhvoi_lfree(&on.kernel, it.name, chunk_handle(index)), chunk_status(writable(it), c), 0)) c->len = -1;
}

static void on_chunk(target it, uint32_t which) {
    static void (*const each[])(target, int, chunk *) = {resize, insert_bytes, delete_bytes, write_bytes, read_bytes, free_chunk};
    static chunk none = {-1, {0}};
    int index = (int)below(CHUNKS);
    each[which](it, index, it.block->locks ? &it.block->chunks[index] : &none);
}

/* Compares a block that is locked. */
static void compare_block(takhvoi_block name, const block *it) {
    uint8_t bytes[LONGEST];
    for (int c = 0; c < CHUNKS; c++) {
        uint16_t len = 0;
        uint32_t wanted = it->chunks[c].len < 0 ? TAKHVOI_BAD_CHUNK : TAKHVOI_DONE;
        if (!is_done("length", takhvoi_lsize(&on.kernel, name, chunk_handle(c), &len), wanted, 0)) continue;
        want("length", len == it->chunks[c].len);
        is_done("read all", takhvoi_read(&on.kernel, name, chunk_handle(c), 0, bytes, len), TAKHVOI_DONE, 0);
        want("byte of all", memcmp(bytes, it->chunks[c].bytes, len) == 0);
    }
}

static void compare(int of_file) {
    for (uint16_t h = 0; h <= BLOCKS; h++) {
        block *it = &(of_file ? &file : &memory)->at[h];
        target here = {of_file, h, it, of_file ? TAKHVOI_VM(h) : TAKHVOI_MEM(h)};
        uint16_t locks = 0, marked = 0;
        is_done("locks", takhvoi_locks(&on.kernel, here.name, &locks), TAKHVOI_DONE, 0);
        want("count of locks", locks == it->locks);
        if (of_file) is_done("marked", takhvoi_marked(&on.kernel, h, &marked), TAKHVOI_DONE, 0);
        want("mark", marked == it->is_marked);
        lock(here);
        if (!it->locks) continue;
        if (it->locks > locks) {
            compare_block(here.name, it);
            unlock(here);
        }
    }
}

static int is_locked(void) {
    for (int h = 0; h <= BLOCKS; h++)
        if (file.at[h].locks) return 1;
    return 0;
}

static void commit(void) {
    while (below(4) && is_locked())
        for (uint16_t h = 0; h <= BLOCKS; h++)
            if (file.at[h].locks) unlock((target){1, h, &file.at[h], TAKHVOI_VM(h)});
    uint32_t which = below(3), wanted = is_locked() ? TAKHVOI_FILE_LOCKED : TAKHVOI_DONE;
    uint32_t status = which == 0 ? takhvoi_file_update(&on) : which == 1 ? takhvoi_file_save(&on) : takhvoi_file_revert(&on);
    if (!is_done("commit", status, wanted, 0)) return;
    if (which == 2) file = saved;
    for (int h = 0; h <= BLOCKS; h++) file.at[h].is_marked = 0;
    updated = file;
    if (which == 1) saved = file;
}

/* Closes the file and opens it again: what no commit has kept is lost. */
static void open_again(void) {
    uint64_t fault;
    uint16_t map = 0;
    is_done("close", takhvoi_file_close(&on), TAKHVOI_DONE, 0);
    is_done("open", takhvoi_file_open(&on, path, REGION, &fault), TAKHVOI_DONE, 0);
    memset(&memory, 0, sizeof memory);
    file = updated;
    is_done("map block", takhvoi_vgetmap(&on.kernel, &map), TAKHVOI_DONE, 0);
    want("map block", map == file.map);
}

static void call(void) {
    uint32_t which = below(20);
    target it = any();
    if (which < 1) make_block(it.of_file);
    else if (which < 4) lock(it);
    else if (which < 7) unlock(it);
    else if (which < 8) free_block(it);
    else if (which < 10) mark(it);
    else if (which < 11) set_map(it);
    else if (which < 12) find(it);
    else if (which < 14) make_chunk(it);
    else on_chunk(it, which - 14);
}

int main(int argc, char **argv) {
    if (argc != 3) return 2;
    path = argv[1];
    is_done("create", takhvoi_file_create(&on, path, AREA, REGION), TAKHVOI_DONE, 0);
    for (calls = 0; calls < atol(argv[2]); calls++) {
        call();
        if (calls % EVERY == 0) {
            compare(0);
            compare(1);
            commit();
        }
        if (calls % (16 * EVERY) == 0) open_again();
    }
    is_done("close", takhvoi_file_close(&on), TAKHVOI_DONE, 0);
    printf("%ld calls, each as the model has it: %s\n", calls, done > refused / 4 && refused > done / 16 ? "some refused" : "few of a kind");
    if (getenv("COUNTS")) fprintf(stderr, "%ld done, %ld refused\n", done, refused);
    return 0;
}
