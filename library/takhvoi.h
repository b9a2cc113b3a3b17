/* Takhvoi for C and C++: blocks that move, VM files, and routines that a verifier has checked. docs/EMBEDDING.md says how to begin.
 *
 * Each call answers TAKHVOI_DONE, or a number below that says why not, and never ends the process. If it is not done, the numbers that it
 * would have told are open, unless its lines below say more. Any handle, chunk, offset and length may be given. What C has to keep to, since
 * nothing tests it:
 *
 *   - A takhvoi_kernel is TAKHVOI_NONE at first. Its fields are left alone. While it is open it is not copied, though it may be moved,
 *     and no two calls work on it at once. Two threads may have a kernel each.
 *   - Each pointer has room for what is said. No two pointers of a call lead to the same bytes, nor one into the takhvoi_kernel. Where one
 *     is null, a call answers TAKHVOI_NULL_POINTER and does nothing; for no bytes it may be null.
 *   - malloc, realloc and free are of one allocator. No call is made from a signal handler, nor from the forked child of a process with
 *     threads.
 *
 * Bytes are copied in and out. No call gives a pointer into a block, so nothing that C has goes stale. */
#ifndef TAKHVOI_H
#define TAKHVOI_H
#include <stddef.h>
#include <stdint.h>

#if defined(__GNUC__)
#define TAKHVOI_USED __attribute__((warn_unused_result))
#define TAKHVOI_CALL __attribute__((nonnull, warn_unused_result))
#else
#define TAKHVOI_USED
#define TAKHVOI_CALL
#endif

#ifdef __cplusplus
extern "C" {
#endif

/* The declarations below change only where this number does. The library tells its own by takhvoi_abi. */
#define TAKHVOI_ABI 1

/* A kernel and what runs over it, or none. */
typedef struct takhvoi_kernel {
    void *at;
    uint32_t live;
} takhvoi_kernel;
#define TAKHVOI_NONE { 0, 0 }

/* A block of either owner: TAKHVOI_MEM of the handle of a block of memory, or TAKHVOI_VM of that of a block or group of the VM file. It is a
 * struct, so that a compiler refuses a bare handle in its place, and a block in the place of a handle. */
typedef struct takhvoi_block {
    uint32_t number;
} takhvoi_block;
static inline takhvoi_block takhvoi_numbered(uint32_t number) {
    takhvoi_block block;
    block.number = number;
    return block;
}
#define TAKHVOI_MEM(handle) takhvoi_numbered((uint16_t)(handle))
#define TAKHVOI_VM(handle) takhvoi_numbered(65536u + (uint16_t)(handle))

enum {
    TAKHVOI_DONE = 0,
    /* Why the kernel refuses: docs/INSTRUCTIONS.md has the same numbers. */
    TAKHVOI_BAD_HANDLE = 1,
    TAKHVOI_BAD_CHUNK = 2,
    TAKHVOI_SHORT = 3,
    TAKHVOI_NO_ROOM = 4,
    TAKHVOI_NO_HANDLE = 5,
    TAKHVOI_TOO_BIG = 6,
    TAKHVOI_LOCKED = 7,
    TAKHVOI_BAD_ARRAY = 8,
    TAKHVOI_BAD_ELEMENT = 9,
    TAKHVOI_FULL = 10,
    TAKHVOI_DISK = 11,
    TAKHVOI_UNSURE = 12,
    TAKHVOI_MEMORY = 13,
    TAKHVOI_RANGE = 14,
    TAKHVOI_RESERVED = 15,
    /* Why the library does: then the kernel is as it was. */
    TAKHVOI_NO_KERNEL = 100,
    TAKHVOI_NOT_LOCKED = 101,
    TAKHVOI_NOT_MARKED = 102,
    TAKHVOI_FILE_LOCKED = 103,
    TAKHVOI_HAS_KERNEL = 104,
    TAKHVOI_BAD_SIZE = 105,
    TAKHVOI_PENDING = 106,
    TAKHVOI_BAD_FILE = 110,
    TAKHVOI_NO_MEMORY = 111,
    TAKHVOI_BAD_IMAGE = 112,
    TAKHVOI_REFUSED = 113,
    TAKHVOI_NOT_ADMITTED = 114,
    TAKHVOI_SHORT_BUFFER = 115,
    TAKHVOI_NOT_GRANTED = 116,
    /* Why a file of the system is refused, by takhvoi_file_open and takhvoi_file_create. */
    TAKHVOI_NO_FILE = 200,
    TAKHVOI_FILE_IS_THERE = 201,
    TAKHVOI_FILE_IN_USE = 202,
    TAKHVOI_NO_ACCESS = 203,
    /* Why this header does: then nothing is called. */
    TAKHVOI_NULL_POINTER = 210
};

/* What a number says, in words. */
static inline const char *takhvoi_error_text(uint32_t status) {
    switch (status) {
    case TAKHVOI_DONE: return "done";
    case TAKHVOI_BAD_HANDLE: return "no block of this kind has this handle";
    case TAKHVOI_BAD_CHUNK: return "no chunk has this handle";
    case TAKHVOI_SHORT: return "the chunk or element is too short";
    case TAKHVOI_NO_ROOM: return "no room in the region";
    case TAKHVOI_NO_HANDLE: return "no handle is free";
    case TAKHVOI_TOO_BIG: return "too big";
    case TAKHVOI_LOCKED: return "the block is locked";
    case TAKHVOI_BAD_ARRAY: return "the chunk is no such array";
    case TAKHVOI_BAD_ELEMENT: return "no element has this index";
    case TAKHVOI_FULL: return "no more words can be put out";
    case TAKHVOI_DISK: return "the device failed";
    case TAKHVOI_UNSURE: return "it is not sure what the device holds";
    case TAKHVOI_MEMORY: return "out of memory";
    case TAKHVOI_RANGE: return "out of range";
    case TAKHVOI_RESERVED: return "the user ID is reserved for groups";
    case TAKHVOI_NO_KERNEL: return "no kernel is open";
    case TAKHVOI_NOT_LOCKED: return "the block is not locked";
    case TAKHVOI_NOT_MARKED: return "the block is not marked as changed";
    case TAKHVOI_FILE_LOCKED: return "a block of the VM file is locked";
    case TAKHVOI_HAS_KERNEL: return "a kernel is open already";
    case TAKHVOI_BAD_SIZE: return "a size or range is past its limits";
    case TAKHVOI_PENDING: return "the host has not performed what is noted";
    case TAKHVOI_NO_FILE: return "no such file or folder";
    case TAKHVOI_FILE_IS_THERE: return "the file is there already";
    case TAKHVOI_FILE_IN_USE: return "another has the file's lock";
    case TAKHVOI_NO_ACCESS: return "the system refuses the file";
    case TAKHVOI_NULL_POINTER: return "a pointer is null";
    case TAKHVOI_BAD_FILE: return "no VM file";
    case TAKHVOI_NO_MEMORY: return "there is no memory";
    case TAKHVOI_BAD_IMAGE: return "no image, or a faulty text";
    case TAKHVOI_REFUSED: return "the verifier refuses";
    case TAKHVOI_NOT_ADMITTED: return "no such image or routine, or it takes other words or blocks";
    case TAKHVOI_SHORT_BUFFER: return "the buffer is too short";
    case TAKHVOI_NOT_GRANTED: return "it does something that is not granted";
    default: return "no such number";
    }
}

/* That of the library: where it is not TAKHVOI_ABI, this header is another's. */
uint32_t takhvoi_abi(void);

/* Limits, beside those of region and area:
 *
 *   - There are at most 1,024 blocks of memory, and 1,024 blocks and groups of the file. A handle is a number from 1 to 1,024.
 *   - A block has at most 65,520 bytes, a chunk at most 65,498. The first chunk of a new block is 16, the next one 18.
 *   - A block is locked at most 65,535 times at once. At the next lock the answer is TAKHVOI_LOCKED.
 *   - A run puts out at most 1,024 words. */

/* Kernels. The region is all memory for blocks, 65,536 to 16,777,216 bytes. An area has room for the current and the saved state together, each
 * with all its blocks: 512 to 16,777,216 bytes, a multiple of 512. A VM file has two areas, of which one is read; a commit writes the other, and
 * is refused with TAKHVOI_TOO_BIG if both states do not fit. `new` has its VM file in memory. For a file of the system take takhvoi_file_create
 * and takhvoi_file_open, below. They call `create`, whose host begins with 1,024 zeros and two areas of zeros, and `open`, whose host has these
 * bytes. */
TAKHVOI_CALL uint32_t takhvoi_new(takhvoi_kernel *kernel, uint32_t area, uint32_t region);
TAKHVOI_CALL uint32_t takhvoi_create(takhvoi_kernel *kernel, uint32_t area, uint32_t region);
/* BAD_FILE tells the offset of the first field that breaks its rule or is cut off. It is past the end of a file that is too short: for the first
 * 871 bytes of one it is where the area begins that is read, 1,024 for area A. */
TAKHVOI_CALL uint32_t takhvoi_open(takhvoi_kernel *kernel, const uint8_t *bytes, size_t len, uint32_t region, uint64_t *fault);
/* What no commit has kept is lost. */
uint32_t takhvoi_close(takhvoi_kernel *kernel);
/* 0 where a commit has failed in a way that leaves two states possible: then no other is taken, and the file is to be opened again. */
TAKHVOI_CALL uint32_t takhvoi_is_sure(takhvoi_kernel *kernel, uint16_t *sure);

/* Lets all blocks in memory together have `more` bytes more than they have, at most the whole region, until the next such call; a number as large
 * as the region takes the limit away. What would be more is refused with TAKHVOI_NO_ROOM, in a run too, after blocks of the file were evicted
 * that are neither locked nor marked. So a run never takes more. */
TAKHVOI_CALL uint32_t takhvoi_limit(takhvoi_kernel *kernel, uint32_t more);
/* Lets new blocks of memory get only handles up to `last`, until the next such call; 1,024 takes the limit away. A new block gets the lowest free
 * handle, so at most `last` blocks have such handles at once. One more is refused with TAKHVOI_NO_HANDLE, in a run too. To let a routine make n
 * blocks beside those with handles 1 to m, pass m + n. */
TAKHVOI_CALL uint32_t takhvoi_limit_blocks(takhvoi_kernel *kernel, uint16_t last);

/* Blocks of memory. One that is not locked may move, which C never sees. */
TAKHVOI_CALL uint32_t takhvoi_mnew(takhvoi_kernel *kernel, uint16_t *handle);
TAKHVOI_CALL uint32_t takhvoi_mlock(takhvoi_kernel *kernel, uint16_t handle);
TAKHVOI_CALL uint32_t takhvoi_mfree(takhvoi_kernel *kernel, uint16_t handle);
/* The handles of all blocks of memory, in rising order. Each call that lists tells in `count` how many handles there are. As many as there is
 * room for are written to `into`, and the rest of `into` is left as it was. */
TAKHVOI_CALL uint32_t takhvoi_mlist(takhvoi_kernel *kernel, uint16_t *into, size_t room, uint32_t *count);
/* Blocks of either owner, and groups. */
TAKHVOI_CALL uint32_t takhvoi_unlock(takhvoi_kernel *kernel, takhvoi_block block);
TAKHVOI_CALL uint32_t takhvoi_locks(takhvoi_kernel *kernel, takhvoi_block block, uint16_t *count);
TAKHVOI_CALL uint32_t takhvoi_marked(takhvoi_kernel *kernel, uint16_t handle, uint16_t *marked);

/* Chunks of a block that is locked; one of the VM file is marked before they change. */
TAKHVOI_CALL uint32_t takhvoi_lalloc(takhvoi_kernel *kernel, takhvoi_block block, uint16_t len, uint16_t *chunk);
TAKHVOI_CALL uint32_t takhvoi_lfree(takhvoi_kernel *kernel, takhvoi_block block, uint16_t chunk);
TAKHVOI_CALL uint32_t takhvoi_lrealloc(takhvoi_kernel *kernel, takhvoi_block block, uint16_t chunk, uint16_t len);
TAKHVOI_CALL uint32_t takhvoi_lins(takhvoi_kernel *kernel, takhvoi_block block, uint16_t chunk, uint16_t at, uint16_t len);
TAKHVOI_CALL uint32_t takhvoi_ldel(takhvoi_kernel *kernel, takhvoi_block block, uint16_t chunk, uint16_t at, uint16_t len);
TAKHVOI_CALL uint32_t takhvoi_lcontract(takhvoi_kernel *kernel, takhvoi_block block);
TAKHVOI_CALL uint32_t takhvoi_lsize(takhvoi_kernel *kernel, takhvoi_block block, uint16_t chunk, uint16_t *len);
/* The handles of all chunks, of a group those of its items. */
TAKHVOI_CALL uint32_t takhvoi_llist(takhvoi_kernel *kernel, takhvoi_block block, uint16_t *into, size_t room, uint32_t *count);
/* If read, caread or step_bytes is not done, `into` is left as it was. */
TAKHVOI_CALL uint32_t takhvoi_read(takhvoi_kernel *kernel, takhvoi_block block, uint16_t chunk, uint16_t at, uint8_t *into, size_t len);
TAKHVOI_CALL uint32_t takhvoi_write(takhvoi_kernel *kernel, takhvoi_block block, uint16_t chunk, uint16_t at, const uint8_t *from, size_t len);

/* Arrays in chunks: of elements of one size, or of sizes of their own where that is 0. */
TAKHVOI_CALL uint32_t takhvoi_canew(takhvoi_kernel *kernel, takhvoi_block block, uint16_t element_size, uint16_t *chunk);
TAKHVOI_CALL uint32_t takhvoi_cacount(takhvoi_kernel *kernel, takhvoi_block block, uint16_t chunk, uint16_t *count);
TAKHVOI_CALL uint32_t takhvoi_caadd(takhvoi_kernel *kernel, takhvoi_block block, uint16_t chunk, uint16_t len);
TAKHVOI_CALL uint32_t takhvoi_cains(takhvoi_kernel *kernel, takhvoi_block block, uint16_t chunk, uint16_t index, uint16_t len);
TAKHVOI_CALL uint32_t takhvoi_cadel(takhvoi_kernel *kernel, takhvoi_block block, uint16_t chunk, uint16_t index);
TAKHVOI_CALL uint32_t takhvoi_cazero(takhvoi_kernel *kernel, takhvoi_block block, uint16_t chunk);
TAKHVOI_CALL uint32_t takhvoi_caresize(takhvoi_kernel *kernel, takhvoi_block block, uint16_t chunk, uint16_t index, uint16_t len);
TAKHVOI_CALL uint32_t takhvoi_casize(takhvoi_kernel *kernel, takhvoi_block block, uint16_t chunk, uint16_t index, uint16_t *len);
TAKHVOI_CALL uint32_t takhvoi_caread(takhvoi_kernel *kernel, takhvoi_block block, uint16_t chunk, uint16_t index, uint16_t at,
                                     uint8_t *into, size_t len);
TAKHVOI_CALL uint32_t takhvoi_cawrite(takhvoi_kernel *kernel, takhvoi_block block, uint16_t chunk, uint16_t index, uint16_t at,
                                      const uint8_t *from, size_t len);

/* Blocks of the VM file. The map block is the one by which a program finds the others. Of a group, vlock, vfree and vsetmap answer
 * TAKHVOI_RESERVED, and ilock and gfree are to be taken; vdirty and vuid take groups too. */
TAKHVOI_CALL uint32_t takhvoi_vnew(takhvoi_kernel *kernel, uint16_t user_id, uint16_t *handle);
TAKHVOI_CALL uint32_t takhvoi_vlock(takhvoi_kernel *kernel, uint16_t handle);
TAKHVOI_CALL uint32_t takhvoi_vdirty(takhvoi_kernel *kernel, uint16_t handle);
TAKHVOI_CALL uint32_t takhvoi_vfree(takhvoi_kernel *kernel, uint16_t handle);
TAKHVOI_CALL uint32_t takhvoi_vfind(takhvoi_kernel *kernel, uint16_t above, uint16_t user_id, uint16_t *handle);
TAKHVOI_CALL uint32_t takhvoi_vuid(takhvoi_kernel *kernel, uint16_t handle, uint16_t *user_id);
/* The handles of all blocks and groups of the file. The user ID of a group is TAKHVOI_GROUP_ID. */
TAKHVOI_CALL uint32_t takhvoi_vlist(takhvoi_kernel *kernel, uint16_t *into, size_t room, uint32_t *count);
#define TAKHVOI_GROUP_ID 65280
TAKHVOI_CALL uint32_t takhvoi_vgetmap(takhvoi_kernel *kernel, uint16_t *handle);
TAKHVOI_CALL uint32_t takhvoi_vsetmap(takhvoi_kernel *kernel, uint16_t handle);

/* Groups of the VM file, and items. These calls bring the group into memory and mark it by themselves. */
TAKHVOI_CALL uint32_t takhvoi_gnew(takhvoi_kernel *kernel, uint16_t *group);
TAKHVOI_CALL uint32_t takhvoi_gfree(takhvoi_kernel *kernel, uint16_t group);
TAKHVOI_CALL uint32_t takhvoi_inew(takhvoi_kernel *kernel, uint16_t group, uint16_t len, uint16_t *item);
TAKHVOI_CALL uint32_t takhvoi_ifree(takhvoi_kernel *kernel, uint16_t group, uint16_t item);
TAKHVOI_CALL uint32_t takhvoi_irealloc(takhvoi_kernel *kernel, uint16_t group, uint16_t item, uint16_t len);
TAKHVOI_CALL uint32_t takhvoi_iins(takhvoi_kernel *kernel, uint16_t group, uint16_t item, uint16_t at, uint16_t len);
TAKHVOI_CALL uint32_t takhvoi_idel(takhvoi_kernel *kernel, uint16_t group, uint16_t item, uint16_t at, uint16_t len);
/* Locks the group where it has the item, and tells the item's length: then its items are read and written as chunks of TAKHVOI_VM(group),
 * which is marked before they are written, and unlocked in the end. */
TAKHVOI_CALL uint32_t takhvoi_ilock(takhvoi_kernel *kernel, uint16_t group, uint16_t item, uint16_t *len);
/* The items of a group, which is brought into memory and is as it was afterwards. It answers as ilock does if the group does not come. */
TAKHVOI_CALL uint32_t takhvoi_ilist(takhvoi_kernel *kernel, uint16_t group, uint16_t *into, size_t room, uint32_t *count);
TAKHVOI_CALL uint32_t takhvoi_igetmap(takhvoi_kernel *kernel, uint16_t *group, uint16_t *item);
TAKHVOI_CALL uint32_t takhvoi_isetmap(takhvoi_kernel *kernel, uint16_t group, uint16_t item);

/* Commits, which want that no block of the file is locked, and that the host has performed what was noted. Each happens whole or not at all.
 * They do not change a file of the system, but note what is to be written: for a takhvoi_file take takhvoi_file_update, takhvoi_file_save and
 * takhvoi_file_revert. After these three, takhvoi_file_flush or takhvoi_file_close changes the file. Until then each call that would change the
 * VM file or one of its blocks answers TAKHVOI_PENDING, and so do commits and runs. If a commit is refused, blocks and marks are as they were,
 * and what is kept is as follows.
 *
 *   - TAKHVOI_MEMORY: nothing was begun, and the commit may be called again. A commit gets the memory for its notes before it begins: as many
 *     bytes as the file has. The kernel keeps that memory until it is closed.
 *   - TAKHVOI_DISK: the device failed, which it does not do for want of memory. If takhvoi_is_sure tells 1, all is as after TAKHVOI_MEMORY. If it
 *     tells 0, the file has what was kept before or after.
 *   - TAKHVOI_UNSURE: nothing was begun, since takhvoi_is_sure tells 0. No commit is taken; the file is to be closed and opened again.
 *
 * vlock, ilock and the calls on items may answer TAKHVOI_DISK too: then nothing has changed. After TAKHVOI_NO_MEMORY there is no new kernel,
 * image or text, and everything else is as it was. */
TAKHVOI_CALL uint32_t takhvoi_update(takhvoi_kernel *kernel);
TAKHVOI_CALL uint32_t takhvoi_save(takhvoi_kernel *kernel);
TAKHVOI_CALL uint32_t takhvoi_revert(takhvoi_kernel *kernel);

/* What the kernel has noted for the host, after `create`, `open`, a commit and a run: steps in order, by numbers from 0 on. `kind` is 1 for a
 * write of `len` bytes from the offset `at` of the file on, 2 where what was written is to be made to last, and 0 behind the last step.
 * `step_bytes` copies bytes of a write, from its byte `from` on. `performed` says that all were performed, and last. */
TAKHVOI_CALL uint32_t takhvoi_step(takhvoi_kernel *kernel, uint32_t number, uint16_t *kind, uint64_t *at, uint64_t *len);
TAKHVOI_CALL uint32_t takhvoi_step_bytes(takhvoi_kernel *kernel, uint32_t number, uint64_t from, uint8_t *into, size_t len);
TAKHVOI_CALL uint32_t takhvoi_performed(takhvoi_kernel *kernel);

/* Images, by numbers that are good until they are unloaded, or the kernel is closed. Each image gets the lowest number that is free. `place` is
 * the offset of the first faulty byte (BAD_IMAGE), or the first instruction that rule `rule` refuses (REFUSED). */
TAKHVOI_CALL uint32_t takhvoi_load(takhvoi_kernel *kernel, const uint8_t *bytes, size_t len, uint32_t *image, uint64_t *place, uint32_t *rule);
/* What a routine does to what is not its own, as bits: docs/GRANTS.md explains each. READS_LENT and CHANGES_LENT have the bits of all four slots;
 * that of slot k is 1 << (8 + k) and 1 << (12 + k). */
enum {
    TAKHVOI_EFFECT_OUTPUT = 1,
    TAKHVOI_EFFECT_MEMORY = 2,
    TAKHVOI_EFFECT_LOCKS_BY_HANDLE = 4,
    TAKHVOI_EFFECT_READS_FILE = 8,
    TAKHVOI_EFFECT_CHANGES_FILE = 16,
    TAKHVOI_EFFECT_MAP = 32,
    TAKHVOI_EFFECT_COMMITS = 64,
    TAKHVOI_EFFECT_READS_LENT = 3840,
    TAKHVOI_EFFECT_CHANGES_LENT = 61440
};
/* Loads an image as takhvoi_load does, if its public routines, with those that they call, do only what has its bit in `grants`. NOT_GRANTED tells
 * the first public `routine` that does more, the bit of an effect that is not granted, and as `place` the instruction with it. Whatever a routine
 * of this image does when it runs, what was not granted is as before. */
TAKHVOI_CALL uint32_t takhvoi_load_granted(takhvoi_kernel *kernel, const uint8_t *bytes, size_t len, uint32_t grants, uint32_t *image,
                                           uint64_t *place, uint32_t *rule, uint16_t *routine, uint32_t *effect);
/* What a routine of an image does, with those that it calls. NOT_ADMITTED if there is no such image or routine. */
TAKHVOI_CALL uint32_t takhvoi_effects(takhvoi_kernel *kernel, uint32_t image, uint16_t routine, uint32_t *effects);
/* The budget of a routine of an image: a run of it takes at most so many steps. NOT_ADMITTED if there is no such image or routine. */
TAKHVOI_CALL uint32_t takhvoi_budget(takhvoi_kernel *kernel, uint32_t image, uint16_t routine, uint32_t *budget);
/* Frees an image: its number is given again. */
TAKHVOI_CALL uint32_t takhvoi_unload(takhvoi_kernel *kernel, uint32_t image);
/* The number of the routine with a name: no two of an image have the same. NOT_ADMITTED if there is no such image or routine. */
TAKHVOI_CALL uint32_t takhvoi_routine(takhvoi_kernel *kernel, uint32_t image, const uint8_t *name, size_t name_len, uint16_t *routine);
/* Runs a public routine: `words` are w0 to w7, before and after. `lent` has the handle of a locked block of the VM file for each slot that the
 * routine borrows, and 0 for the others; no other block of the file is locked, and none more often than it is lent. Otherwise the answer is
 * NOT_ADMITTED, as it is if there is no such image or public routine, or a word is past its bound. Of the `count` words that the routine puts
 * out, as many as there is room for come into `output`. What it commits is noted, as by the commits above: for a takhvoi_file take
 * takhvoi_file_run. After this call, as after takhvoi_save, changes answer TAKHVOI_PENDING until takhvoi_file_flush has performed that.
 * If the run does not begin, `words` and `output` are left as they were.
 * TAKHVOI_MEMORY says that the memory for the notes of one commit was refused, and nothing was begun. Each later commit of the same run gets
 * its own before it begins: if that is refused, the routine is answered 11, and nothing of this commit was begun. */
TAKHVOI_CALL uint32_t takhvoi_run(takhvoi_kernel *kernel, uint32_t image, uint16_t routine, uint16_t words[8], const uint16_t lent[4],
                                  uint16_t *output, size_t room, uint32_t *count, uint32_t *steps);

/* Texts and images, as bytes. `told` is how many bytes come, also where the buffer is too short; or what is at fault: the line of a text
 * (BAD_IMAGE: a faulty line, REFUSED: a routine for which no rows are found), or the offset in an image (BAD_IMAGE). The bytes are written to the
 * beginning of `into`, whose rest is left as it was; if the call is not done, all of it is. */
TAKHVOI_CALL uint32_t takhvoi_assemble(const uint8_t *text, size_t text_len, uint8_t *into, size_t room, uint64_t *told);
TAKHVOI_CALL uint32_t takhvoi_list(const uint8_t *image, size_t image_len, uint8_t *into, size_t room, uint64_t *told);
TAKHVOI_CALL uint32_t takhvoi_explain(const uint8_t *image, size_t image_len, uint8_t *into, size_t room, uint64_t *told);
/* Explains a text, as `geos explain` does: its lines with what is known at each instruction, and why the verifier refuses its image, if it does;
 * or what is wrong with each faulty line; or why no rows are found. `line` is 0 if the verifier accepts the image. Otherwise it is the first
 * faulty line, or the line of the routine that has no rows, or that of the first instruction that is refused, which takhvoi_load tells as
 * `place`. `column` counts bytes of that line from 1, and is 0 if the whole line is meant. Both are told with SHORT_BUFFER too. */
TAKHVOI_CALL uint32_t takhvoi_explain_text(const uint8_t *text, size_t text_len, uint8_t *into, size_t room, uint64_t *told, uint64_t *line,
                                           uint64_t *column);
/* Compiles a source of the structured language to an image that the verifier accepts. If the source has a fault, the answer is BAD_IMAGE, and
 * `told` is the line of the first fault. A source may use the library `std`, but no other file. */
TAKHVOI_CALL uint32_t takhvoi_compile(const uint8_t *source, size_t source_len, uint8_t *into, size_t room, uint64_t *told);
/* Writes the first fault of a source as a line of text, `line 2, column 5: ..`, and tells its line and column. If the source has no fault, all
 * three numbers are 0. Line and column are told with SHORT_BUFFER too. */
TAKHVOI_CALL uint32_t takhvoi_explain_source(const uint8_t *source, size_t source_len, uint8_t *into, size_t room, uint64_t *told,
                                             uint64_t *line, uint64_t *column);

/* What a debugger or an editor shows. These calls write records: as many as there is room for, and the rest of `into` is left as it was. `count`
 * tells how many there are. Offsets and sizes are in bytes. They change nothing, except takhvoi_trace and takhvoi_memory_at, which run a
 * routine. */

/* A block in memory, of either owner, or a group: where it begins in the region, its size, and how often it is locked. */
typedef struct takhvoi_place {
    takhvoi_block block;
    uint32_t at;
    uint32_t size;
    uint32_t locks;
} takhvoi_place;
/* All blocks in memory, in the order in which they lie in the region. No two overlap. */
TAKHVOI_CALL uint32_t takhvoi_places(takhvoi_kernel *kernel, takhvoi_place *into, size_t room, uint32_t *count);
/* Copies `len` bytes of the region from an offset on. BAD_SIZE if the region has fewer; then `into` is left as it was. */
TAKHVOI_CALL uint32_t takhvoi_region(takhvoi_kernel *kernel, uint32_t at, uint8_t *into, size_t len);

/* A chunk of a block in memory, or an item of a group: its handle, where its bytes begin in the region, and how many there are. */
typedef struct takhvoi_chunk {
    uint32_t handle;
    uint32_t at;
    uint32_t len;
} takhvoi_chunk;
/* The chunks of a block in memory, locked or not, by rising handles. BAD_HANDLE if the block is not in memory. */
TAKHVOI_CALL uint32_t takhvoi_chunks(takhvoi_kernel *kernel, takhvoi_block block, takhvoi_chunk *into, size_t room, uint32_t *count);

/* A block or group of the VM file, as it is now. `size` is that of the block in memory, or in the file if it is not in memory. `in_memory` and
 * `marked` are 1 or 0. */
typedef struct takhvoi_entry {
    uint32_t handle;
    uint32_t user_id;
    uint32_t size;
    uint32_t in_memory;
    uint32_t marked;
    uint32_t locks;
} takhvoi_entry;
/* All blocks and groups of the VM file, by rising handles. */
TAKHVOI_CALL uint32_t takhvoi_entries(takhvoi_kernel *kernel, takhvoi_entry *into, size_t room, uint32_t *count);

/* A routine of an image: its name, and zeros up to 16 bytes; 1 if it is public, otherwise 0; its first instruction, and how many it has; its
 * budget; the bounds of w0 to w7 where it begins; and what s0 to s3 hold there: 0 nothing, 1 a block of memory, 2 a block of the file, 3 one that
 * is marked, 4 a group, 5 a group that is marked, 6 a lent block of the file, 7 one that is marked. */
typedef struct takhvoi_routine_entry {
    uint8_t name[16];
    uint32_t is_public;
    uint32_t first;
    uint32_t length;
    uint32_t budget;
    uint16_t bounds[8];
    uint8_t slots[4];
} takhvoi_routine_entry;
/* The routines of a loaded image, by their numbers from 0 on. NOT_ADMITTED if there is no such image. */
TAKHVOI_CALL uint32_t takhvoi_routines(takhvoi_kernel *kernel, uint32_t image, takhvoi_routine_entry *into, size_t room, uint32_t *count);

/* The line of each instruction of an assembly text, by instructions from 0 on; lines count from 1. `told` is how many instructions there are, or
 * the first faulty line (BAD_IMAGE). */
TAKHVOI_CALL uint32_t takhvoi_lines(const uint8_t *text, size_t text_len, uint32_t *into, size_t room, uint64_t *told);

/* Why a text may not run: a faulty line, a routine for which no rows are found, or an instruction that the verifier refuses by rule `rule`. Only
 * of a refusal `rule`, `routine` and `instruction` are told; otherwise they are 0. `column` counts bytes of the line from 1, and is 0 if the whole
 * line is meant. The sentence is `len` bytes of `said`, from `from` on. */
#define TAKHVOI_FAULTY_LINE 1
#define TAKHVOI_NO_ROWS 2
#define TAKHVOI_REFUSAL 3
typedef struct takhvoi_finding {
    uint32_t kind;
    uint32_t line;
    uint32_t column;
    uint32_t rule;
    uint32_t routine;
    uint32_t instruction;
    uint32_t from;
    uint32_t len;
} takhvoi_finding;
/* The findings of a text, as `geos asm` prints them, which leaves out those after many; none if the verifier accepts its image. `told` is how
 * many bytes their sentences have. SHORT_BUFFER if one of the two buffers is too short: then `count` and `told` are told, and both buffers are
 * left as they were. */
TAKHVOI_CALL uint32_t takhvoi_findings(const uint8_t *text, size_t text_len, takhvoi_finding *into, size_t room, uint32_t *count, uint8_t *said,
                                       size_t said_room, uint64_t *told);

/* A machine before a step: the instruction that comes next; where p0 to p3 lead in the region, and how many bytes there are from there on; the
 * blocks in s0 to s3; w0 to w7; k0 to k3. Bit n of `held` is 1 if slot n holds a block, and bit n of `good` if the verifier knows where pointer n
 * leads. The other slots and pointers mean nothing: such a pointer is stale, or was never set. */
typedef struct takhvoi_state {
    uint32_t instruction;
    uint32_t pointers[4];
    uint32_t spans[4];
    takhvoi_block slots[4];
    uint16_t words[8];
    uint16_t counters[4];
    uint16_t held;
    uint16_t good;
} takhvoi_state;
/* Runs a routine as takhvoi_run does, and tells the state before each step from step `first` on, counted from 0: as many as there is room for.
 * For a takhvoi_file, call takhvoi_file_flush before it and after it. MEMORY also if there is no memory for notes: then nothing was begun. */
TAKHVOI_CALL uint32_t takhvoi_trace(takhvoi_kernel *kernel, uint32_t image, uint16_t routine, uint16_t words[8], const uint16_t lent[4],
                                    uint16_t *output, size_t output_room, uint32_t *count, uint32_t *steps, uint32_t first, takhvoi_state *into,
                                    size_t room);
/* Runs a routine as takhvoi_run does, and tells what memory has before a step: its blocks, as takhvoi_places does, and the first `len` bytes of
 * the region. If the run has no such step, `count` is 0 and `region` is left as it was. */
TAKHVOI_CALL uint32_t takhvoi_memory_at(takhvoi_kernel *kernel, uint32_t image, uint16_t routine, uint16_t words[8], const uint16_t lent[4],
                                        uint32_t step, takhvoi_place *into, size_t room, uint32_t *count, uint8_t *region, size_t len);

/* Files of the system. */
#include "takhvoi_file.h"

/* Each call tests its pointers first, unless TAKHVOI_UNTESTED is defined. */
#ifndef TAKHVOI_UNTESTED
#include "takhvoi_tested.h"
#endif

#ifdef __cplusplus
}
#endif
#endif
