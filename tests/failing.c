// The calls of the system that read, write and sync a file, of which some fail or stop the program. FAILING says which and how, as
// `CALL FIRST LAST HOW`: of the calls of this name, or of all where it is `any`, those from FIRST to LAST, counted from 1. Their names are
// read, write, fdatasync, fsync and ftruncate; a read or write without an offset is stream-read or stream-write, which are not among any,
// add no line, and never are of the standard error; statx, unlink and flock are not among any either, and add no line. HOW is
//   fail       EIO, with nothing done
//   fail-half  EIO, behind the first half of the bytes of a write
//   fail-all   EIO, behind all bytes of a write
//   stop       the program is killed, with nothing done
//   stop-half  it is killed, behind the first half of the bytes of a write
//   part       half of the bytes are read or written, and the call says so
//   part-fail  EIO, with nothing done, and before FIRST each call is as with part
//   byte       one byte is read or written, and the call says so
//   again      EINTR, with nothing done
//   busy       EAGAIN, with nothing done
// Each call adds a line to the file that CALLS names: its name, and its offset and length where it has them.
#define _GNU_SOURCE
#include <dlfcn.h>
#include <errno.h>
#include <fcntl.h>
#include <signal.h>
#include <stdio.h>
#include <stdlib.h>
#include <string.h>
#include <sys/stat.h>
#include <unistd.h>

enum how { DO, FAIL, STOP, PART, BYTE, AGAIN };

static char wanted[32], how[32];
static long first, last, seen;
static int calls = -1;

__attribute__((constructor)) static void begin(void) {
    const char *failing = getenv("FAILING"), *name = getenv("CALLS");
    if (failing && sscanf(failing, "%31s %ld %ld %31s", wanted, &first, &last, how) != 4) abort();
    if (name) calls = open(name, O_WRONLY | O_CREAT | O_APPEND | O_CLOEXEC, 0666);
}

static void *next(const char *name) { return dlsym(RTLD_NEXT, name); }

static void write_some(int file, const void *bytes, size_t count, off64_t at) {
    ssize_t (*call)(int, const void *, size_t, off64_t) = next("pwrite64");
    if (call(file, bytes, count, at) != (ssize_t)count) abort();
}

// What becomes of a call of the name that is wanted; of a write with an offset the bytes are given.
static enum how wanted_begun(int file, const void *bytes, size_t count, off64_t at) {
    if (++seen < first) return !strcmp(how, "part-fail") && count > 1 ? PART : DO;
    if (seen > last) return DO;
    if (strstr(how, "-half") && bytes) write_some(file, bytes, count / 2, at);
    if (strstr(how, "-all") && bytes) write_some(file, bytes, count, at);
    if (!strncmp(how, "stop", 4)) kill(getpid(), SIGKILL);
    if (!strncmp(how, "fail", 4) || !strcmp(how, "part-fail")) return errno = EIO, FAIL;
    if (!strcmp(how, "part") && count > 1) return PART;
    if (!strcmp(how, "byte") && count > 1) return BYTE;
    if (!strcmp(how, "again")) return errno = EINTR, AGAIN;
    if (!strcmp(how, "busy")) return errno = EAGAIN, AGAIN;
    return DO;
}

// What becomes of a call; of a write the bytes are given.
static enum how begun(const char *name, int file, const void *bytes, size_t count, off64_t at) {
    if (calls >= 0 && count) dprintf(calls, "%s %lld %zu\n", name, (long long)at, count);
    if (calls >= 0 && !count) dprintf(calls, "%s\n", name);
    if (strcmp(wanted, "any") && strcmp(wanted, name)) return DO;
    return wanted_begun(file, bytes, count, at);
}

// What becomes of a read or write without an offset.
static enum how stream_begun(const char *name, int file, size_t count) {
    if (file == STDERR_FILENO || strcmp(wanted, name)) return DO;
    return wanted_begun(file, NULL, count, 0);
}

// How many bytes a call is for.
static size_t some(enum how now, size_t count) { return now == PART ? count / 2 : now == BYTE ? 1 : count; }

static ssize_t write_at(const char *name, int file, const void *bytes, size_t count, off64_t at) {
    ssize_t (*call)(int, const void *, size_t, off64_t) = next(name);
    enum how now = begun("write", file, bytes, count, at);
    if (now == FAIL || now == AGAIN) return -1;
    return call(file, bytes, some(now, count), at);
}

static ssize_t read_at(const char *name, int file, void *bytes, size_t count, off64_t at) {
    ssize_t (*call)(int, void *, size_t, off64_t) = next(name);
    enum how now = begun("read", file, NULL, count, at);
    if (now == FAIL || now == AGAIN) return -1;
    return call(file, bytes, some(now, count), at);
}

// On 64-bit systems a call has two names.
ssize_t pwrite(int file, const void *bytes, size_t count, off_t at) { return write_at("pwrite", file, bytes, count, at); }

ssize_t pwrite64(int file, const void *bytes, size_t count, off64_t at) { return write_at("pwrite64", file, bytes, count, at); }

ssize_t pread(int file, void *bytes, size_t count, off_t at) { return read_at("pread", file, bytes, count, at); }

ssize_t pread64(int file, void *bytes, size_t count, off64_t at) { return read_at("pread64", file, bytes, count, at); }

ssize_t read(int file, void *bytes, size_t count) {
    ssize_t (*call)(int, void *, size_t) = next("read");
    enum how now = stream_begun("stream-read", file, count);
    return now == FAIL || now == AGAIN ? -1 : call(file, bytes, some(now, count));
}

ssize_t write(int file, const void *bytes, size_t count) {
    ssize_t (*call)(int, const void *, size_t) = next("write");
    enum how now = stream_begun("stream-write", file, count);
    return now == FAIL || now == AGAIN ? -1 : call(file, bytes, some(now, count));
}

static int without_bytes(const char *name, int file) {
    int (*call)(int) = next(name);
    enum how now = begun(name, file, NULL, 0, 0);
    return now == FAIL || now == AGAIN ? -1 : call(file);
}

int fdatasync(int file) { return without_bytes("fdatasync", file); }

int fsync(int file) { return without_bytes("fsync", file); }

int ftruncate(int file, off_t length) {
    int (*call)(int, off_t) = next("ftruncate");
    enum how now = begun("ftruncate", file, NULL, 0, 0);
    return now == FAIL || now == AGAIN ? -1 : call(file, length);
}

// Whether a call that is not among any is refused.
static int is_refused(const char *name) { return !strcmp(wanted, name) && wanted_begun(-1, NULL, 0, 0) != DO; }

int statx(int folder, const char *path, int flags, unsigned mask, struct statx *found) {
    int (*call)(int, const char *, int, unsigned, struct statx *) = next("statx");
    return is_refused("statx") ? -1 : call(folder, path, flags, mask, found);
}

int unlink(const char *path) {
    int (*call)(const char *) = next("unlink");
    return is_refused("unlink") ? -1 : call(path);
}

int flock(int file, int operation) {
    int (*call)(int, int) = next("flock");
    return is_refused("flock") ? -1 : call(file, operation);
}
