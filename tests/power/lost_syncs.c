/* A library to preload that leaves out syncs of a program, to see that the power cuts show it. LOST says which: `all`; `area` or `selector`, of
 * each two fdatasync of a commit the first or the second (the one with which a process opens its file is done); `folder`, those of folders. */
#define _GNU_SOURCE
#include <dlfcn.h>
#include <stdlib.h>
#include <string.h>
#include <sys/stat.h>
#include <unistd.h>

static int is_lost(const char *what) {
    const char *lost = getenv("LOST");
    return lost && strcmp(lost, what) == 0;
}

int fdatasync(int fd) {
    static unsigned calls;
    unsigned call = calls++;
    int (*next)(int) = (int (*)(int))dlsym(RTLD_NEXT, "fdatasync");
    if (is_lost("all") || (is_lost("area") && call % 2 == 1) || (is_lost("selector") && call > 0 && call % 2 == 0)) return 0;
    return next(fd);
}

int fsync(int fd) {
    struct stat info;
    int (*next)(int) = (int (*)(int))dlsym(RTLD_NEXT, "fsync");
    if (is_lost("all") || (is_lost("folder") && fstat(fd, &info) == 0 && S_ISDIR(info.st_mode))) return 0;
    return next(fd);
}
