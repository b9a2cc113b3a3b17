/* Part of takhvoi.h: kernels on files of the system. The kernel's commits note writes and syncs, and these functions perform them on the file,
 * in order. So a stop of the program, or of the machine, at any moment is a stop of the kernel's device at that call. */
#ifndef TAKHVOI_FILE_H
#define TAKHVOI_FILE_H

/* A kernel on a file, whose lock is held until it is closed. `next` is the first step that was not performed, or may not last. */
typedef struct takhvoi_file {
    takhvoi_kernel kernel;
    int fd;
    uint32_t next;
} takhvoi_file;
#define TAKHVOI_FILE_NONE { TAKHVOI_NONE, -1, 0 }

/* Performs what is noted. DISK where the file refuses: then the rest stays noted, and the next call goes on behind the last sync that was
 * done; writes since then are performed again. */
TAKHVOI_CALL uint32_t takhvoi_file_flush(takhvoi_file *file);

/* Closes the kernel and the file, and gives the lock back. It first performs what is noted, so a commit that takhvoi_save made lasts as one that
 * takhvoi_file_save made does. What no commit has kept is lost. DISK if the file refuses: it is closed too, and has what was kept before the
 * commit or after it. */
uint32_t takhvoi_file_close(takhvoi_file *file);

/* Opens a file, and takes its lock. BAD_FILE tells in `fault` what takhvoi_open does. */
TAKHVOI_CALL uint32_t takhvoi_file_open(takhvoi_file *file, const char *path, uint32_t region, uint64_t *fault);

/* Makes a file that is not there yet, takes its lock, and makes the file and its path last. The file gets the path only when it is whole; so
 * if the call is not done, or the program or the machine stops meanwhile, the path has no file. (On a file system without links an empty file
 * has the path for a moment before.) A stop may leave a file `.geos-part-N` in the folder. If N is below 16, the next call
 * that makes a file in this folder removes it. */
TAKHVOI_CALL uint32_t takhvoi_file_create(takhvoi_file *file, const char *path, uint32_t area, uint32_t region);

/* A commit, of which nothing is answered as done before the file has it. DISK may also come where the kernel has committed and the file
 * refuses: then the file has what was kept before or after. The next flush, commit or run goes on; until one is done, changes of the VM file
 * answer TAKHVOI_PENDING. */
TAKHVOI_CALL uint32_t takhvoi_file_update(takhvoi_file *file);
TAKHVOI_CALL uint32_t takhvoi_file_save(takhvoi_file *file);
TAKHVOI_CALL uint32_t takhvoi_file_revert(takhvoi_file *file);

/* takhvoi_run, and performs the commits of the routine on the file. */
TAKHVOI_CALL uint32_t takhvoi_file_run(takhvoi_file *file, uint32_t image, uint16_t routine, uint16_t words[8], const uint16_t lent[4],
                                       uint16_t *output, size_t room, uint32_t *count, uint32_t *steps);

#endif
