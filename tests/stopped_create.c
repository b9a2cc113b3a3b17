/* Makes a VM file with the library in a process that is killed before a call of the system, before each in turn. Afterwards the path has no
 * file or a whole one, and the next calls open or make the file and remove what the stopped process left. It is linked with --wrap of the calls
 * below. usage: stopped_create FOLDER, an empty one */
#include "takhvoi.h"
#include <dirent.h>
#include <fcntl.h>
#include <signal.h>
#include <stdarg.h>
#include <stdio.h>
#include <string.h>
#include <sys/types.h>
#include <sys/wait.h>
#include <unistd.h>

enum { AREA = 1 << 12, REGION = 1 << 16 };

/* The calls that a process has made, and the one before which it is killed; 0 for none. */
static long asked, chosen;

/* Kills the process if this call is the one. */
static void count_call(void) {
    if (chosen > 0 && ++asked == chosen) kill(getpid(), SIGKILL);
}

int __real_openat(int folder, const char *path, int flags, mode_t mode);
int __real_flock(int fd, int how);
int __real_ftruncate(int fd, off_t len);
ssize_t __real_pwrite(int fd, const void *from, size_t len, off_t at);
int __real_fdatasync(int fd);
int __real_fsync(int fd);
int __real_linkat(int from, const char *old, int to, const char *new, int flags);
int __real_unlinkat(int folder, const char *path, int flags);

int __wrap_openat(int folder, const char *path, int flags, ...) {
    va_list more;
    va_start(more, flags);
    mode_t mode = flags & O_CREAT ? va_arg(more, mode_t) : 0;
    va_end(more);
    count_call();
    return __real_openat(folder, path, flags, mode);
}

int __wrap_flock(int fd, int how) {
    count_call();
    return __real_flock(fd, how);
}

int __wrap_ftruncate(int fd, off_t len) {
    count_call();
    return __real_ftruncate(fd, len);
}

ssize_t __wrap_pwrite(int fd, const void *from, size_t len, off_t at) {
    count_call();
    return __real_pwrite(fd, from, len, at);
}

int __wrap_fdatasync(int fd) {
    count_call();
    return __real_fdatasync(fd);
}

int __wrap_fsync(int fd) {
    count_call();
    return __real_fsync(fd);
}

int __wrap_linkat(int from, const char *old, int to, const char *new, int flags) {
    count_call();
    return __real_linkat(from, old, to, new, flags);
}

int __wrap_unlinkat(int folder, const char *path, int flags) {
    count_call();
    return __real_unlinkat(folder, path, flags);
}

static long number;

static void want(int holds, const char *what) {
    if (!holds) printf("stopped before call %ld: %s\n", number, what);
}

/* Makes a file, and closes it. */
static uint32_t make(const char *path) {
    takhvoi_file file = TAKHVOI_FILE_NONE;
    uint32_t status = takhvoi_file_create(&file, path, AREA, REGION);
    if (status != TAKHVOI_DONE) return status;
    return takhvoi_file_close(&file);
}

/* Opens a file, and closes it. */
static uint32_t look(const char *path) {
    takhvoi_file file = TAKHVOI_FILE_NONE;
    uint64_t fault;
    uint32_t status = takhvoi_file_open(&file, path, REGION, &fault);
    if (status != TAKHVOI_DONE) return status;
    return takhvoi_file_close(&file);
}

/* Whether a process that makes the file is killed before the call of the number. */
static int is_killed(const char *path) {
    int status;
    pid_t child = fork();
    if (child == 0) {
        chosen = number;
        _exit(make(path) == TAKHVOI_DONE ? 0 : 1);
    }
    if (child < 0 || waitpid(child, &status, 0) != child) return 0;
    want(WIFSIGNALED(status) || WEXITSTATUS(status) == 0, "the file is not made");
    return WIFSIGNALED(status);
}

/* How many names the folder has. */
static int names_in(const char *path) {
    int count = 0;
    struct dirent *entry;
    DIR *folder = opendir(path);
    if (folder == NULL) return -1;
    while ((entry = readdir(folder)) != NULL) count += strcmp(entry->d_name, ".") != 0 && strcmp(entry->d_name, "..") != 0;
    closedir(folder);
    return count;
}

int main(int argc, char **argv) {
    static char path[4096], other[4096];
    int none = 0, whole = 0, left = 0, is_stopped;
    if (argc != 2) return 2;
    snprintf(path, sizeof path, "%s/a.vm", argv[1]);
    snprintf(other, sizeof other, "%s/b.vm", argv[1]);
    do {
        number++;
        is_stopped = is_killed(path);
        left += names_in(argv[1]) > (access(path, F_OK) == 0);
        uint32_t status = look(path);
        want(status == TAKHVOI_DONE || status == TAKHVOI_NO_FILE, takhvoi_error_text(status));
        none += status == TAKHVOI_NO_FILE;
        whole += status == TAKHVOI_DONE;
        if (status == TAKHVOI_NO_FILE) want(make(path) == TAKHVOI_DONE, "the next call does not make it");
        want(make(path) == TAKHVOI_FILE_IS_THERE, "it is made twice");
        want(make(other) == TAKHVOI_DONE, "another file is not made");
        want(names_in(argv[1]) == 2, "something else is left in the folder");
        unlink(path);
        unlink(other);
    } while (is_stopped);
    want(none > 5 && whole > 2 && left > 5, "hardly any call was made");
    puts("each stop left no file, or a whole one");
    return 0;
}
