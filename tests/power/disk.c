/* A disk with a cache that a power cut empties, as a FUSE file system of one file, `disk.img`. It logs what it is asked, in order:
 *
 *   WRITE_BEGINS  number, offset, length, and the bytes       FLUSH_BEGINS  number
 *   WRITE_ENDS    number                                      FLUSH_ENDS    number
 *
 * Several threads answer requests, each after a random time, so a flush may overtake a write that is not answered yet. A flush covers the
 * writes that were answered before it began; these last from its end on.
 *
 * usage: disk MOUNTPOINT IMAGE LOG LONGEST_WAIT_IN_MICROSECONDS SEED. It changes IMAGE in place, and ends when it is unmounted. */
#define FUSE_USE_VERSION 34
#define _GNU_SOURCE
#include <errno.h>
#include <fcntl.h>
#include <fuse_lowlevel.h>
#include <pthread.h>
#include <stdint.h>
#include <stdio.h>
#include <stdlib.h>
#include <string.h>
#include <sys/mman.h>
#include <sys/stat.h>
#include <sys/uio.h>
#include <unistd.h>

enum { WRITE_BEGINS = 1, WRITE_ENDS, FLUSH_BEGINS, FLUSH_ENDS };

/* What the log has of an event; power.py reads it. */
struct event {
    uint32_t kind, number;
    uint64_t at, len;
};

enum { FOLDER = 1, FILE_IN_IT = 2, FOREVER = 3600 };

static uint8_t *image;
static uint64_t size, random_state;
static int log_fd;
static uint32_t longest_wait, last_number;
static pthread_mutex_t lock = PTHREAD_MUTEX_INITIALIZER;

/* A random number. The caller has the lock. */
static uint64_t draw(void) {
    random_state ^= random_state << 13;
    random_state ^= random_state >> 7;
    random_state ^= random_state << 17;
    return random_state;
}

static void log_event(uint32_t kind, uint32_t number, uint64_t at, const void *bytes, uint64_t len) {
    struct event event = {kind, number, at, len};
    struct iovec parts[2] = {{&event, sizeof event}, {(void *)bytes, len}};
    if (writev(log_fd, parts, 2) != (ssize_t)(sizeof event + len)) {
        perror("disk: log");
        abort();
    }
}

/* Logs that a request begins, and does it; answers its number, after the time that it takes. */
static uint32_t begin(uint32_t kind, uint64_t at, const void *bytes, uint64_t len) {
    pthread_mutex_lock(&lock);
    uint32_t number = ++last_number;
    log_event(kind, number, at, bytes, len);
    if (len > 0) memcpy(image + at, bytes, len);
    useconds_t wait = longest_wait ? (useconds_t)(draw() % longest_wait) : 0;
    pthread_mutex_unlock(&lock);
    if (wait) usleep(wait);
    return number;
}

static void end(uint32_t kind, uint32_t number) {
    pthread_mutex_lock(&lock);
    log_event(kind, number, 0, NULL, 0);
    pthread_mutex_unlock(&lock);
}

static struct stat stat_of(fuse_ino_t ino) {
    struct stat info = {0};
    info.st_ino = ino;
    info.st_mode = ino == FOLDER ? S_IFDIR | 0700 : S_IFREG | 0600;
    info.st_nlink = 1;
    info.st_size = ino == FOLDER ? 0 : (off_t)size;
    info.st_blksize = 4096;
    info.st_blocks = info.st_size / 512;
    return info;
}

static void on_init(void *data, struct fuse_conn_info *connection) {
    (void)data;
    connection->max_background = 64;
    connection->max_write = 1 << 20;
}

static void on_lookup(fuse_req_t request, fuse_ino_t parent, const char *name) {
    struct fuse_entry_param entry = {0};
    if (parent != FOLDER || strcmp(name, "disk.img") != 0) {
        fuse_reply_err(request, ENOENT);
        return;
    }
    entry.ino = FILE_IN_IT;
    entry.attr = stat_of(FILE_IN_IT);
    entry.attr_timeout = entry.entry_timeout = FOREVER;
    fuse_reply_entry(request, &entry);
}

static void on_getattr(fuse_req_t request, fuse_ino_t ino, struct fuse_file_info *file) {
    struct stat info = stat_of(ino);
    (void)file;
    fuse_reply_attr(request, &info, FOREVER);
}

static void on_open(fuse_req_t request, fuse_ino_t ino, struct fuse_file_info *file) {
    if (ino != FILE_IN_IT) {
        fuse_reply_err(request, EISDIR);
        return;
    }
    file->direct_io = 1;
    fuse_reply_open(request, file);
}

static void on_read(fuse_req_t request, fuse_ino_t ino, size_t len, off_t at, struct fuse_file_info *file) {
    uint64_t from = (uint64_t)at < size ? (uint64_t)at : size;
    (void)ino, (void)file;
    fuse_reply_buf(request, (const char *)image + from, len < size - from ? len : (size_t)(size - from));
}

static void on_write(fuse_req_t request, fuse_ino_t ino, const char *bytes, size_t len, off_t at, struct fuse_file_info *file) {
    (void)ino, (void)file;
    if ((uint64_t)at > size || len > size - (uint64_t)at) {
        fuse_reply_err(request, ENOSPC);
        return;
    }
    end(WRITE_ENDS, begin(WRITE_BEGINS, (uint64_t)at, bytes, len));
    fuse_reply_write(request, len);
}

static void on_fsync(fuse_req_t request, fuse_ino_t ino, int is_data, struct fuse_file_info *file) {
    (void)ino, (void)is_data, (void)file;
    end(FLUSH_ENDS, begin(FLUSH_BEGINS, 0, NULL, 0));
    fuse_reply_err(request, 0);
}

static const struct fuse_lowlevel_ops calls = {
    .init = on_init, .lookup = on_lookup, .getattr = on_getattr, .open = on_open,
    .read = on_read, .write = on_write,   .fsync = on_fsync,
};

int main(int argc, char **argv) {
    struct stat info;
    char *words[] = {argv[0]};
    struct fuse_args args = FUSE_ARGS_INIT(1, words);
    struct fuse_loop_config config = {.clone_fd = 0, .max_idle_threads = 16};
    if (argc != 6) return 2;
    int fd = open(argv[2], O_RDWR);
    log_fd = open(argv[3], O_WRONLY | O_CREAT | O_TRUNC | O_APPEND, 0600);
    if (fd < 0 || log_fd < 0 || fstat(fd, &info) != 0) {
        perror("disk");
        return 1;
    }
    size = (uint64_t)info.st_size;
    image = mmap(NULL, size, PROT_READ | PROT_WRITE, MAP_SHARED, fd, 0);
    longest_wait = (uint32_t)atoi(argv[4]);
    random_state = (uint64_t)atoll(argv[5]) * 0x9E3779B97F4A7C15u + 1;
    struct fuse_session *session = fuse_session_new(&args, &calls, sizeof calls, NULL);
    if (image == MAP_FAILED || !session || fuse_set_signal_handlers(session) != 0 || fuse_session_mount(session, argv[1]) != 0) return 1;
    int failed = fuse_session_loop_mt(session, &config) != 0;
    fuse_session_unmount(session);
    return failed;
}
