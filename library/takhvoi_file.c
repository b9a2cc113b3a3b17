/* Kernels on files of the system: takhvoi_file.h. */
#define _POSIX_C_SOURCE 200809L
#define _DEFAULT_SOURCE
#define TAKHVOI_UNTESTED
#include "takhvoi.h"
#include <errno.h>
#include <fcntl.h>
#include <stdio.h>
#include <stdlib.h>
#include <string.h>
#include <sys/file.h>
#include <sys/stat.h>
#include <sys/types.h>
#include <unistd.h>

/* The longest VM file: 1,024 bytes and two areas. */
#define LONGEST_FILE (1024u + 2u * 16777216u)

/* How many names for a part are tried, and how many of them are searched for what stopped programs have left. */
#define PART_NAMES 100
#define SEARCHED_NAMES 16

/* Calls of the system that a signal interrupts, or that come short, are tried again. */
static int write_all(int fd, const uint8_t *bytes, size_t len, uint64_t at) {
    while (len > 0) {
        ssize_t n = pwrite(fd, bytes, len, (off_t)at);
        if (n < 0 && errno == EINTR) continue;
        if (n <= 0) return 0;
        bytes += n;
        len -= (size_t)n;
        at += (uint64_t)n;
    }
    return 1;
}

static int read_all(int fd, uint8_t *bytes, size_t len) {
    size_t at = 0;
    while (at < len) {
        ssize_t n = pread(fd, bytes + at, len - at, (off_t)at);
        if (n < 0 && errno == EINTR) continue;
        if (n <= 0) return 0;
        at += (size_t)n;
    }
    return 1;
}

static int sync_file(int fd) {
    int done;
    do done = fdatasync(fd);
    while (done != 0 && errno == EINTR);
    return done == 0;
}

/* Gives an open file a number above those of the standard streams: where one of them is closed, it would have got that one's, and what the
 * program prints would go into it. */
static int above_streams(int fd) {
    if (fd > STDERR_FILENO) return fd;
    int above = fcntl(fd, F_DUPFD_CLOEXEC, STDERR_FILENO + 1);
    close(fd);
    return above;
}

static int lock_file(int fd) {
    int done;
    do done = flock(fd, LOCK_EX | LOCK_NB);
    while (done != 0 && errno == EINTR);
    return done == 0;
}

/* A file that is made in the folder of its path, under a name that no other program uses, until it is whole. It is locked meanwhile, so a part
 * that nobody has locked was left by a stopped program. `geos new` has the same names. */
typedef struct part {
    int folder;
    char name[32];
} part;

/* The last name of a path. */
static const char *last_name(const char *path) {
    const char *slash = strrchr(path, '/');
    return slash == NULL ? path : slash + 1;
}

/* Opens the folder of a path, or answers -1. */
static int open_folder(const char *path) {
    char folder[4096] = ".";
    size_t len = (size_t)(last_name(path) - path);
    if (len >= sizeof folder) {
        errno = ENAMETOOLONG;
        return -1;
    }
    if (len > 0) {
        memcpy(folder, path, len);
        folder[len] = 0;
    }
    return open(folder, O_RDONLY | O_DIRECTORY | O_CLOEXEC);
}

/* 1 if the name leads to the open file, 0 if it does not, -1 if the system does not say. */
static int is_named(int folder, const char *name, int fd) {
    struct stat of_fd, of_name;
    if (fstat(fd, &of_fd) != 0) return -1;
    if (fstatat(folder, name, &of_name, AT_SYMLINK_NOFOLLOW) != 0) return errno == ENOENT ? 0 : -1;
    return of_fd.st_dev == of_name.st_dev && of_fd.st_ino == of_name.st_ino;
}

/* Removes the part of this name if a stopped program has left it. */
static void remove_left(int folder, const char *name) {
    struct stat info;
    int fd;
    if (fstatat(folder, name, &info, AT_SYMLINK_NOFOLLOW) != 0 || !S_ISREG(info.st_mode)) return;
    fd = openat(folder, name, O_RDONLY | O_NOFOLLOW | O_NONBLOCK | O_CLOEXEC);
    if (fd < 0) return;
    if (lock_file(fd) && is_named(folder, name, fd) == 1) unlinkat(folder, name, 0);
    close(fd);
}

/* Makes a file and locks it. Otherwise it answers -1, and leaves no file; errno is EEXIST if another name is to be tried, since a program has
 * that name, or has taken the file for one that was left before it was locked. */
static int make_locked(int folder, const char *name) {
    int error, named = 0;
    int fd = openat(folder, name, O_RDWR | O_CREAT | O_EXCL | O_CLOEXEC, 0666);
    if (fd < 0) return -1;
    fd = above_streams(fd);
    if (fd >= 0 && lock_file(fd)) {
        named = is_named(folder, name, fd);
        if (named == 1) return fd;
        errno = named == 0 ? EEXIST : errno;
    }
    error = errno == EWOULDBLOCK ? EEXIST : errno;
    if (error != EEXIST) unlinkat(folder, name, 0);
    if (fd >= 0) close(fd);
    errno = error;
    return -1;
}

/* Begins a part for a path that has no file: opens its folder, and answers the part's file, or -1. */
static int begin_part(part *part, const char *path) {
    struct stat info;
    int fd = -1, error;
    unsigned n;
    part->folder = -1;
    if (lstat(path, &info) == 0) errno = EEXIST;
    else if (errno == ENOENT) part->folder = open_folder(path);
    if (part->folder < 0) return -1;
    for (n = 0; n < SEARCHED_NAMES; n++) {
        snprintf(part->name, sizeof part->name, ".geos-part-%u", n);
        remove_left(part->folder, part->name);
    }
    errno = EEXIST;
    for (n = 0; n < PART_NAMES && fd < 0 && errno == EEXIST; n++) {
        snprintf(part->name, sizeof part->name, ".geos-part-%u", n);
        fd = make_locked(part->folder, part->name);
    }
    if (fd >= 0) return fd;
    error = errno == EEXIST ? EAGAIN : errno;
    close(part->folder);
    errno = error;
    return -1;
}

/* Why a file can't be made, by errno. */
static uint32_t why_not_made(void) {
    return errno == EEXIST ? TAKHVOI_FILE_IS_THERE : errno == ENOENT ? TAKHVOI_NO_FILE : TAKHVOI_NO_ACCESS;
}

/* Gives a part a name that no file has, on a file system without links: an empty file takes the name first, and is replaced. */
static int rename_part(const part *part, const char *name) {
    int fd = openat(part->folder, name, O_WRONLY | O_CREAT | O_EXCL | O_CLOEXEC, 0666);
    if (fd < 0) return 0;
    close(fd);
    if (renameat(part->folder, part->name, part->folder, name) == 0) return 1;
    unlinkat(part->folder, name, 0);
    errno = EACCES;
    return 0;
}

/* Gives a part, which is whole, the path, if no file has it, and makes that last. Otherwise no file is left. */
static uint32_t finish_part(const part *part, const char *path) {
    const char *name = last_name(path);
    uint32_t status;
    int is_linked = linkat(part->folder, part->name, part->folder, name, 0) == 0;
    if (!is_linked && (errno == EEXIST || !rename_part(part, name))) {
        status = why_not_made();
        unlinkat(part->folder, part->name, 0);
        return status;
    }
    if (is_linked) unlinkat(part->folder, part->name, 0);
    if (fsync(part->folder) == 0) return TAKHVOI_DONE;
    unlinkat(part->folder, name, 0);
    return TAKHVOI_NO_ACCESS;
}

/* Performs a write, by pieces. */
static uint32_t perform_write(takhvoi_file *file, uint32_t number, uint64_t at, uint64_t len) {
    uint8_t piece[16384];
    uint64_t from = 0;
    while (from < len) {
        size_t part = len - from < sizeof piece ? (size_t)(len - from) : sizeof piece;
        uint32_t status = takhvoi_step_bytes(&file->kernel, number, from, piece, part);
        if (status != TAKHVOI_DONE) return status;
        if (!write_all(file->fd, piece, part, at + from)) return TAKHVOI_DISK;
        from += part;
    }
    return TAKHVOI_DONE;
}

uint32_t takhvoi_file_flush(takhvoi_file *file) {
    uint32_t n, status;
    uint16_t kind;
    uint64_t at, len;
    for (n = file->next;; n++) {
        status = takhvoi_step(&file->kernel, n, &kind, &at, &len);
        if (status == TAKHVOI_DONE && kind == 1) status = perform_write(file, n, at, len);
        if (status != TAKHVOI_DONE) return status;
        if (kind == 1) continue;
        if (n > file->next || kind == 2) {
            if (!sync_file(file->fd)) return TAKHVOI_DISK;
            file->next = n + (kind == 2);
        }
        if (kind == 0) break;
    }
    status = takhvoi_performed(&file->kernel);
    if (status == TAKHVOI_DONE) file->next = 0;
    return status;
}

/* Closes the kernel and the file, and performs nothing. */
static uint32_t give_up(takhvoi_file *file) {
    uint32_t status = takhvoi_close(&file->kernel);
    if (file->fd >= 0) close(file->fd);
    file->fd = -1;
    file->next = 0;
    return status;
}

uint32_t takhvoi_file_close(takhvoi_file *file) {
    uint32_t status = file->kernel.live != 0 ? takhvoi_file_flush(file) : TAKHVOI_DONE;
    uint32_t closed = give_up(file);
    return status != TAKHVOI_DONE ? status : closed;
}

uint32_t takhvoi_file_open(takhvoi_file *file, const char *path, uint32_t region, uint64_t *fault) {
    struct stat info;
    uint8_t *bytes;
    size_t len;
    uint32_t status;
    if (file->kernel.live != 0) return TAKHVOI_HAS_KERNEL;
    file->next = 0;
    file->fd = open(path, O_RDWR | O_CLOEXEC);
    if (file->fd < 0) return errno == ENOENT ? TAKHVOI_NO_FILE : TAKHVOI_NO_ACCESS;
    file->fd = above_streams(file->fd);
    if (file->fd < 0) return TAKHVOI_NO_ACCESS;
    if (!lock_file(file->fd)) {
        status = errno == EWOULDBLOCK ? TAKHVOI_FILE_IN_USE : TAKHVOI_NO_ACCESS;
        close(file->fd);
        file->fd = -1;
        return status;
    }
    status = TAKHVOI_NO_ACCESS;
    if (fstat(file->fd, &info) == 0 && S_ISREG(info.st_mode)) {
        len = info.st_size < (off_t)LONGEST_FILE ? (size_t)info.st_size : LONGEST_FILE;
        bytes = (uint8_t *)malloc(len + 1);
        if (bytes == NULL) status = TAKHVOI_NO_MEMORY;
        else if (read_all(file->fd, bytes, len)) status = takhvoi_open(&file->kernel, bytes, len, region, fault);
        free(bytes);
    }
    if (status == TAKHVOI_DONE) status = takhvoi_file_flush(file);
    if (status != TAKHVOI_DONE) give_up(file);
    return status;
}

uint32_t takhvoi_file_create(takhvoi_file *file, const char *path, uint32_t area, uint32_t region) {
    part part;
    uint32_t status;
    if (file->kernel.live != 0) return TAKHVOI_HAS_KERNEL;
    file->next = 0;
    file->fd = begin_part(&part, path);
    if (file->fd < 0) return why_not_made();
    status = takhvoi_create(&file->kernel, area, region);
    if (status == TAKHVOI_DONE && ftruncate(file->fd, (off_t)1024 + 2 * (off_t)area) != 0) status = TAKHVOI_NO_ACCESS;
    if (status == TAKHVOI_DONE) status = takhvoi_file_flush(file);
    if (status == TAKHVOI_DONE && fsync(file->fd) != 0) status = TAKHVOI_NO_ACCESS;
    if (status == TAKHVOI_DONE) status = finish_part(&part, path);
    else unlinkat(part.folder, part.name, 0);
    close(part.folder);
    if (status != TAKHVOI_DONE) give_up(file);
    return status;
}

/* Performs a commit. */
static uint32_t commit_on(takhvoi_file *file, uint32_t (*commit)(takhvoi_kernel *)) {
    uint32_t done, status = takhvoi_file_flush(file);
    if (status != TAKHVOI_DONE) return status;
    done = commit(&file->kernel);
    status = takhvoi_file_flush(file);
    return done != TAKHVOI_DONE ? done : status;
}

uint32_t takhvoi_file_update(takhvoi_file *file) {
    return commit_on(file, takhvoi_update);
}

uint32_t takhvoi_file_save(takhvoi_file *file) {
    return commit_on(file, takhvoi_save);
}

uint32_t takhvoi_file_revert(takhvoi_file *file) {
    return commit_on(file, takhvoi_revert);
}

uint32_t takhvoi_file_run(takhvoi_file *file, uint32_t image, uint16_t routine, uint16_t words[8], const uint16_t lent[4],
                          uint16_t *output, size_t room, uint32_t *count, uint32_t *steps) {
    uint32_t done, status = takhvoi_file_flush(file);
    if (status != TAKHVOI_DONE) return status;
    done = takhvoi_run(&file->kernel, image, routine, words, lent, output, room, count, steps);
    status = takhvoi_file_flush(file);
    return done != TAKHVOI_DONE ? done : status;
}
