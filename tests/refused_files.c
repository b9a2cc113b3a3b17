/* Keeps a block in a file with the library, with each call of the system on the file refused, interrupted or cut short in turn: what was kept
 * stands in the file before or after the commit, the next commit goes on, a close performs a commit that was not performed, and where no file
 * was made none is left. It is linked with --wrap of the calls below. usage: refused_files FILE */
#include "takhvoi.h"
#include <errno.h>
#include <stdio.h>
#include <string.h>
#include <sys/types.h>
#include <unistd.h>

enum { REFUSED, INTERRUPTED, SHORT, MANNERS };

static long asked, chosen = -1;
static int manner;

ssize_t __real_pwrite(int fd, const void *from, size_t len, off_t at);
ssize_t __real_pread(int fd, void *into, size_t len, off_t at);
int __real_fdatasync(int fd);
int __real_fsync(int fd);
int __real_ftruncate(int fd, off_t len);
int __real_linkat(int from, const char *old, int to, const char *new, int flags);
int __real_unlinkat(int folder, const char *path, int flags);

/* Whether this call is the one; then it fails, unless it is only cut short. */
static int is_chosen(void) {
    if (asked++ != chosen) return 0;
    errno = manner == INTERRUPTED ? EINTR : EIO;
    return 1;
}

ssize_t __wrap_pwrite(int fd, const void *from, size_t len, off_t at) {
    if (!is_chosen()) return __real_pwrite(fd, from, len, at);
    return manner == SHORT ? __real_pwrite(fd, from, len / 3 + 1, at) : -1;
}

ssize_t __wrap_pread(int fd, void *into, size_t len, off_t at) {
    if (!is_chosen()) return __real_pread(fd, into, len, at);
    return manner == SHORT ? __real_pread(fd, into, len / 3 + 1, at) : -1;
}

int __wrap_fdatasync(int fd) {
    return is_chosen() && manner != SHORT ? -1 : __real_fdatasync(fd);
}

int __wrap_fsync(int fd) {
    return manner == REFUSED && is_chosen() ? -1 : __real_fsync(fd);
}

int __wrap_ftruncate(int fd, off_t len) {
    return manner == REFUSED && is_chosen() ? -1 : __real_ftruncate(fd, len);
}

int __wrap_linkat(int from, const char *old, int to, const char *new, int flags) {
    return manner == REFUSED && is_chosen() ? -1 : __real_linkat(from, old, to, new, flags);
}

int __wrap_unlinkat(int folder, const char *path, int flags) {
    return manner == REFUSED && is_chosen() ? -1 : __real_unlinkat(folder, path, flags);
}

static void want(int holds, const char *what) {
    if (!holds) printf("manner %d, call %ld: %s\n", manner, chosen, what);
}

enum { LEN = 600 };

/* The bytes that stand for a letter, which is the first of them. */
static void spell(char letter, uint8_t bytes[LEN]) {
    for (int i = 0; i < LEN; i++) bytes[i] = (uint8_t)(letter + i * 31);
}

/* Has the block's first chunk spell a letter. */
static uint32_t put(takhvoi_file *file, uint16_t block, char letter) {
    uint8_t bytes[LEN];
    spell(letter, bytes);
    if (takhvoi_vlock(&file->kernel, block) != TAKHVOI_DONE) return TAKHVOI_NOT_LOCKED;
    uint32_t status = takhvoi_vdirty(&file->kernel, block);
    if (status == TAKHVOI_DONE) status = takhvoi_write(&file->kernel, TAKHVOI_VM(block), 16, 0, bytes, LEN);
    return takhvoi_unlock(&file->kernel, TAKHVOI_VM(block)) == TAKHVOI_DONE ? status : TAKHVOI_NOT_LOCKED;
}

/* What is noted has to be performed before the VM file changes; blocks of memory change. */
static void try_changes(takhvoi_file *file, uint16_t block) {
    takhvoi_kernel *k = &file->kernel;
    uint16_t told, chunk;
    want(put(file, block, 'x') == TAKHVOI_PENDING, "a block is marked");
    want(takhvoi_vnew(k, 2, &told) == TAKHVOI_PENDING && takhvoi_gnew(k, &told) == TAKHVOI_PENDING, "a block is made");
    want(takhvoi_vfree(k, block) == TAKHVOI_PENDING && takhvoi_gfree(k, block) == TAKHVOI_PENDING, "a block is freed");
    want(takhvoi_vsetmap(k, block) == TAKHVOI_PENDING && takhvoi_isetmap(k, 0, 0) == TAKHVOI_PENDING, "the map changes");
    want(takhvoi_inew(k, 1, 1, &told) == TAKHVOI_PENDING && takhvoi_ifree(k, 1, 16) == TAKHVOI_PENDING, "an item changes");
    want(takhvoi_mnew(k, &told) == TAKHVOI_DONE, "no block of memory is made");
    want(takhvoi_lalloc(k, TAKHVOI_MEM(told), 8, &chunk) == TAKHVOI_DONE, "no chunk is made");
    want(takhvoi_unlock(k, TAKHVOI_MEM(told)) == TAKHVOI_DONE && takhvoi_mfree(k, told) == TAKHVOI_DONE, "no block of memory is freed");
}

static uint32_t make(takhvoi_file *file, uint16_t *block) {
    uint16_t chunk;
    if (takhvoi_vnew(&file->kernel, 1, block) != TAKHVOI_DONE) return TAKHVOI_NO_ROOM;
    if (takhvoi_lalloc(&file->kernel, TAKHVOI_VM(*block), LEN, &chunk) != TAKHVOI_DONE) return TAKHVOI_NO_ROOM;
    return takhvoi_unlock(&file->kernel, TAKHVOI_VM(*block));
}

/* Opens the file, at the second try if a call of the first one was refused. */
static void open_file(takhvoi_file *file, const char *path) {
    uint64_t fault = 0;
    uint32_t status = takhvoi_file_open(file, path, 1 << 16, &fault);
    if (status != TAKHVOI_DONE) status = takhvoi_file_open(file, path, 1 << 16, &fault);
    want(status == TAKHVOI_DONE, takhvoi_error_text(status));
}

/* The letter that the file has, or `0` for none. The choice of a call goes on in the open. */
static char kept(const char *path, uint16_t block) {
    takhvoi_file file = TAKHVOI_FILE_NONE;
    uint8_t bytes[LEN] = {'0'}, wanted[LEN];
    open_file(&file, path);
    if (takhvoi_vlock(&file.kernel, block) == TAKHVOI_DONE) {
        want(takhvoi_read(&file.kernel, TAKHVOI_VM(block), 16, 0, bytes, LEN) == TAKHVOI_DONE, "no chunk");
        spell((char)bytes[0], wanted);
        want(memcmp(bytes, wanted, LEN) == 0, "bytes of two commits");
        want(takhvoi_unlock(&file.kernel, TAKHVOI_VM(block)) == TAKHVOI_DONE, "the block is not locked");
    }
    want(takhvoi_file_close(&file) == TAKHVOI_DONE, "a file that is only read is not closed");
    return (char)bytes[0];
}

/* Closes the file after a commit, and looks whether the file has the letter of the commit, or that of the one before. */
static void close_after(takhvoi_file *file, const char *path, uint16_t block, char last, char before) {
    uint32_t status = takhvoi_file_close(file);
    char letter = kept(path, block);
    if (status == TAKHVOI_DONE) {
        want(letter == last, "the last commit is lost");
    } else {
        want(manner == REFUSED && status == TAKHVOI_DISK, takhvoi_error_text(status));
        want(letter == last || letter == before, "neither is kept");
    }
}

/* A commit, tried again where it was refused; the answer of the first. */
static uint32_t save(takhvoi_file *file) {
    uint32_t status = takhvoi_file_save(file);
    if (status == TAKHVOI_DONE) return status;
    want(manner == REFUSED && status == TAKHVOI_DISK, takhvoi_error_text(status));
    if (chosen % 2 == 0) want(takhvoi_file_save(file) == TAKHVOI_DONE, "the next commit does not go on");
    return status;
}

/* Commits by takhvoi_save in place of takhvoi_file_save: the close performs it. */
static void commit_by_kernel(const char *path, uint16_t block) {
    takhvoi_file file = TAKHVOI_FILE_NONE;
    char before = kept(path, block);
    if (before == '0') return;
    open_file(&file, path);
    want(put(&file, block, 'c') == TAKHVOI_DONE && takhvoi_save(&file.kernel) == TAKHVOI_DONE, "the kernel does not commit");
    want(takhvoi_save(&file.kernel) == TAKHVOI_PENDING, "it commits again before the host has performed the commit");
    try_changes(&file, block);
    close_after(&file, path, block, 'c', before);
}

static void work(const char *path) {
    takhvoi_file file = TAKHVOI_FILE_NONE;
    uint16_t block = 0;
    unlink(path);
    uint32_t status = takhvoi_file_create(&file, path, 1 << 16, 1 << 16);
    if (status != TAKHVOI_DONE) {
        want(access(path, F_OK) != 0, "a file was left");
        want(manner == REFUSED, "it was not tried again");
        return;
    }
    want(make(&file, &block) == TAKHVOI_DONE && put(&file, block, 'a') == TAKHVOI_DONE, "the block is not made");
    uint32_t first = save(&file);
    int is_performed = first == TAKHVOI_DONE || chosen % 2 == 0;
    want(put(&file, block, 'b') == (is_performed ? TAKHVOI_DONE : TAKHVOI_PENDING), "another answer to a change");
    if (is_performed) {
        uint32_t second = save(&file);
        close_after(&file, path, block, 'b', second == TAKHVOI_DONE ? 'b' : 'a');
    } else {
        close_after(&file, path, block, 'a', '0');
    }
    commit_by_kernel(path, block);
}

int main(int argc, char **argv) {
    if (argc != 2) return 2;
    for (manner = 0; manner < MANNERS; manner++) {
        chosen = -1;
        do {
            chosen++;
            asked = 0;
            work(argv[1]);
        } while (chosen < asked);
        want(chosen > 10, "hardly any call was made");
    }
    puts("each call was refused, interrupted and cut short");
    return 0;
}
