/*
 * xvfs.h: the lower layers of the xv6 file system, over an image in memory.
 *
 * The library does no input and no output. A session holds a copy of an image, and each step of a
 * process tells the host the one block that it wrote, if it wrote one, or that it synced. The host
 * does that to its own device before it asks for the next step. Then at each moment recovery of what
 * the device holds gives the opening's files after exactly the changing operations of the committed
 * groups (xvfs_step): without XVFS_HOLD the device holds the session's image of before or after the
 * last step; with it, the image of the last told sync with any of the writes told since.
 *
 * THE HOST'S FOUR DUTIES, from which that follows. xvfs_host.h keeps them, over a device of three
 * functions:
 *  1. At xvfs_open the device holds the bytes that are passed, flushed. A log that isn't empty is refused
 *     there: recover the device first, as xvfs_recover_step tells.
 *  2. Each block that a step tells is written to the device, whole or not at all, before the next
 *     step, in the order of the steps.
 *  3. A device that holds writes back is flushed behind each of these writes; where the session was
 *     opened with XVFS_HOLD, only where a step tells a sync, which is four times a commit.
 *  4. Only then is an answer, or `committed`, told to anyone. An answer outlives a stop once
 *     `committed` has reached its `group`. Where a write or a flush fails the session is closed and
 *     never stepped again: another may be opened over what the device holds, once it is recovered.
 *
 * A GROUP is what one commit keeps: the operations, but for reads and stats, that began since the commit
 * before. A stop keeps all that they changed, or nothing. A session numbers its groups from 1, in the
 * order of their commits.
 *
 * WHAT THE CALLER OWES. Nothing here is tested by the library unless it says so.
 *  - An `xvfs` is zeroed before its first use, is not copied while it is open, and is handed to one
 *    call at a time. That may be on any thread or processor, where the calls are ordered by a lock, a
 *    thread's start or join, or a sequentially consistent atomic. No call is made from a signal
 *    handler, from the child of a fork of a process with threads, or from an interrupt that stopped
 *    another call of that session.
 *  - xvfs_open takes a closed handle; xvfs_submit, _step, _poll, _shut and _close an open one. The
 *    inline functions below test that, and answer XVFS_E_CLOSED or XVFS_E_OPEN.
 *  - Each pointer is valid for the call and not null, even where its length is 0, and is aligned as
 *    its type; but `bytes` of xvfs_submit and xvfs_poll may be NULL there. Memory behind a pointer that
 *    is not `const` overlaps nothing else that is passed.
 *  - `malloc`, `realloc` and `free` of the program are one allocator's, and align a block to each
 *    power of two up to 16 that divides its size. They may answer NULL: the call then refuses.
 *    Only xvfs_mkfs, _check, _recover, _recover_step, _open, _submit, and a step that begins an
 *    operation take memory. (That no other step does is by test.)
 *  - Stack: 76 KiB for xvfs_open, 4 KiB for each other call, which a test measures.
 *  - The code is for any x86-64 processor: it uses the registers and instructions of SSE and SSE2, and
 *    the red zone of the System V ABI. A kernel that calls it has SSE enabled, saves its registers where
 *    it switches tasks, and takes interrupts on another stack (or calls it with interrupts off).
 *
 * Link: cc main.c libxvfs.a. It needs memcpy, memmove, memset, malloc, realloc and free, and defines the
 * eleven functions below and no other name.
 */
#ifndef XVFS_H
#define XVFS_H

#include <stddef.h>
#include <stdint.h>

#ifdef __cplusplus
extern "C" {
#endif

/* The version of this header and its library. As long as the first number is 0, a program may have to be
 * changed for another second one, and never for another third. */
#define XVFS_VERSION_MAJOR 0
#define XVFS_VERSION_MINOR 2
#define XVFS_VERSION_PATCH 0
#define XVFS_VERSION "0.2.0"
#define XVFS_VERSION_NUMBER (65536u * XVFS_VERSION_MAJOR + 256u * XVFS_VERSION_MINOR + XVFS_VERSION_PATCH)

/* The XVFS_VERSION_NUMBER of the library, which may be built of another version than this header. */
uint32_t xvfs_version(void);

/* A session. XVFS_CLOSED_HANDLE before the first use and after xvfs_close. */
typedef struct { void *session; } xvfs;
#define XVFS_CLOSED_HANDLE { NULL }

#define XVFS_BLOCK_SIZE 1024u
#define XVFS_MAX_BLOCKS 8191u     /* 8 MiB less one block */
#define XVFS_TRANSFER   3072u     /* most bytes of one read or write */
#define XVFS_PLACES     16u       /* operations, and answers, that may wait for a process */
#define XVFS_PROCESSES  32u       /* most processes of a session */
#define XVFS_NOBODY     UINT32_MAX /* no process */

/*
 * Results: 0, or 256 times the layer plus the refusal's number in it. The layers and the numbers of
 * 1 to 5 are those that the program `xvfs` prints, as `xvfs: check 9 LostBlock 37`. Below, each call
 * lists its results beside XVFS_OK; XVFS_E_BAD_IMAGE stands there for the nine of layer 3 from
 * XVFS_E_BAD_MAGIC to XVFS_E_LOST_BLOCK. No call answers one that is marked "never".
 */
#define XVFS_LAYER(e)  ((uint32_t)(e) >> 8)
#define XVFS_NUMBER(e) ((uint32_t)(e) & 255u)
typedef enum xvfs_result {
    XVFS_OK = 0,
    /* 1 file */
    XVFS_E_FILE_LENGTH    = 0x102, /* not a whole number of blocks, from 1 to XVFS_MAX_BLOCKS */
    /* 2 mkfs */
    XVFS_E_MKFS_SIZE      = 0x201, XVFS_E_MKFS_INODES = 0x202, XVFS_E_MKFS_DISK = 0x203 /* never */,
    XVFS_E_MKFS_MEMORY    = 0x204,
    /* 3 check: the first fault of the image; `at` of the report has the inode or the block */
    XVFS_E_BAD_MAGIC      = 0x301, XVFS_E_BAD_GEOMETRY  = 0x302, XVFS_E_BAD_LOG     = 0x303,
    XVFS_E_BAD_TYPE       = 0x304, XVFS_E_BAD_SIZE      = 0x305, XVFS_E_BAD_ADDRESS = 0x306,
    XVFS_E_TWICE_USED     = 0x307, XVFS_E_USED_BUT_FREE = 0x308, XVFS_E_LOST_BLOCK  = 0x309,
    XVFS_E_CHECK_DISK     = 0x30a /* never */, XVFS_E_CHECK_MEMORY = 0x30b,
    /* 4 recover */
    XVFS_E_RECOVER_DISK   = 0x401 /* never */, XVFS_E_RECOVER_LOG = 0x402,
    XVFS_E_RECOVER_MEMORY = 0x403, XVFS_E_RECOVER_SYNC = 0x404 /* never */,
    /* 5 open */
    XVFS_E_OPEN_MEMORY    = 0x503, XVFS_E_OPEN_PROCESSES = 0x504, /* not 1 to XVFS_PROCESSES */
    XVFS_E_OPEN_FLAGS     = 0x505, /* another flag than XVFS_HOLD */
    XVFS_E_LOGGED         = 0x506, /* the log isn't empty: the device is to be recovered first */
    /* 6 call */
    XVFS_E_NO_PROCESS     = 0x601, /* no process has that number */
    XVFS_E_FULL           = 0x602, /* XVFS_PLACES operations of the process wait */
    XVFS_E_NO_OPERATION   = 0x603, /* no operation of that kind, or a type or links over 65535 */
    XVFS_E_NO_BLOCK       = 0x604, /* `bytes` has not XVFS_BLOCK_SIZE bytes */
    XVFS_E_WRITES         = 0x605, /* the session made 2^63 writes or syncs */
    XVFS_E_SUBMIT_MEMORY  = 0x606,
    XVFS_E_NO_ANSWER      = 0x607, /* no answer waits */
    XVFS_E_CLOSED         = 0x608, XVFS_E_OPEN = 0x609, /* of the inline functions alone */
    XVFS_E_SHORT          = 0x60a, /* the oldest answer has more bytes than there is room for */
    /* 7 host: of xvfs_host.h alone */
    XVFS_E_DEVICE         = 0x701, /* the device failed */
    XVFS_E_NOT_KEPT       = 0x702, /* a stop may still lose the oldest answer: others are to go on */
    XVFS_E_SLEEPS         = 0x703, /* the operation waits for another process */
    XVFS_E_BEGIN_MEMORY   = 0x704, /* the operation waits: memory to begin it was refused */
    XVFS_E_SHUT           = 0x705  /* the operation never begins */
} xvfs_result;

/* What xvfs_check found. On a refusal of layer 3 only `fault` and `at` are written, on
 * XVFS_E_FILE_LENGTH nothing. Here and below `reserved` is room for later versions, and isn't written. */
typedef struct {
    xvfs_result fault; /* XVFS_OK, or the refusal */
    uint32_t at;       /* its inode or block, 0 where it has none */
    uint32_t form;     /* 1: files of up to 268 blocks; 2: 65803 */
    uint32_t size, nblocks, ninodes;
    uint32_t logged;   /* blocks that recovery would copy home */
    uint32_t files;    /* files once it has */
    uint32_t reserved[8];
} xvfs_report;

/* XVFS_OK says that the image is sound once its log is copied home. Writes nothing to it.
 * XVFS_E_FILE_LENGTH, XVFS_E_BAD_IMAGE, XVFS_E_CHECK_MEMORY. */
xvfs_result xvfs_check(const uint8_t *image, size_t len, xvfs_report *out);

/* Makes an empty image of `len` bytes with `ninodes` inode numbers (2 to 1024), of form 2 where
 * `form` is 2, else of form 1. On a refusal the image is as it was. A host that makes it on a
 * device writes block 1 last. XVFS_E_FILE_LENGTH, XVFS_E_MKFS_SIZE, _INODES, _MEMORY. */
xvfs_result xvfs_mkfs(uint8_t *image, size_t len, uint32_t ninodes, uint32_t form);

/* Copies the blocks of the log home and empties the log; `*recovered` is how many they were. On a
 * refusal nothing is changed. For an image in memory; a host brings it to its device by the next.
 * XVFS_E_FILE_LENGTH, XVFS_E_BAD_IMAGE, XVFS_E_CHECK_MEMORY, XVFS_E_RECOVER_MEMORY. */
xvfs_result xvfs_recover(uint8_t *image, size_t len, uint32_t *recovered);

/* What is to be done to a device: a write, or a flush, or neither. */
typedef struct {
    uint32_t wrote;    /* 1: write `bytes` to `block`; else 0 */
    uint32_t block;    /* its number; else 0 */
    uint32_t synced;   /* 1: flush; else 0 */
    uint32_t reserved[5];
} xvfs_told;

/*
 * Recovers a device, place by place from 0: tells what to do to the device that had `image`, flushed, in
 * this order: the homes of the logged blocks, a flush, the empty header, a flush. Then it tells neither,
 * and the device has the image that xvfs_recover makes. `image` is not changed, and is the same at
 * each place; `bytes` has XVFS_BLOCK_SIZE bytes. Place 0 checks the image, and takes memory for it.
 *
 * Proved: whatever a stop amid it leaves, be it that the device loses any writes behind its last
 * flush, recovers to the same image, by the same steps. On a refusal nothing is written.
 *
 * XVFS_E_FILE_LENGTH, XVFS_E_NO_BLOCK; place 0 also XVFS_E_BAD_IMAGE, XVFS_E_CHECK_MEMORY; another
 * also XVFS_E_RECOVER_LOG, where the log is unlawful, or there is none.
 */
xvfs_result xvfs_recover_step(const uint8_t *image, size_t len, uint32_t place, xvfs_told *out,
                              uint8_t *bytes, size_t bytes_len);

/* A flag of xvfs_open: steps tell syncs, and the device is flushed there alone. */
#define XVFS_HOLD 1u

/* Opens a kernel of 1 to XVFS_PROCESSES processes over a copy of the image, which it checks. The host's
 * device must hold these bytes. Recover them first: a log that isn't empty is refused. `flags` is 0 or
 * XVFS_HOLD. On a refusal the handle stays closed. The memory is the image's and about 50 to 100 KiB,
 * however many operations there are. XVFS_E_FILE_LENGTH, XVFS_E_BAD_IMAGE, XVFS_E_CHECK_MEMORY,
 * XVFS_E_OPEN_MEMORY, _PROCESSES, _FLAGS, XVFS_E_LOGGED. */
xvfs_result xvfs_open(xvfs *fs, const uint8_t *image, size_t len, uint32_t processes, uint32_t flags);

/* Operations, by inode number. XVFS_OP_RESIZE cuts a file, or adds up to XVFS_TRANSFER zeroes to it: then
 * its answer is XVFS_REPLY_WROTE, as a write's. */
typedef enum xvfs_op_kind {
    XVFS_OP_CREATE, XVFS_OP_WRITE, XVFS_OP_READ, XVFS_OP_TRUNC, XVFS_OP_REMOVE, XVFS_OP_STAT,
    XVFS_OP_LINKS, XVFS_OP_RESIZE
} xvfs_op_kind;
typedef struct {
    xvfs_op_kind kind;
    uint32_t inum;     /* of XVFS_OP_CREATE the type: 1 directory, 2 file, 3 device */
    uint32_t offset;   /* of XVFS_OP_WRITE and XVFS_OP_READ */
    uint32_t len;      /* of XVFS_OP_READ; of XVFS_OP_LINKS the new count of links, of _RESIZE the length */
} xvfs_op;

/* Hands an operation of process `pid` in, behind those that wait. `bytes` are those of a write, and
 * are copied; NULL will do where `len` is 0. `*seq` is its number among the process's, from 1.
 * XVFS_E_NO_PROCESS, XVFS_E_FULL, XVFS_E_NO_OPERATION, XVFS_E_SUBMIT_MEMORY. */
xvfs_result xvfs_submit(xvfs *fs, uint32_t pid, const xvfs_op *op, const uint8_t *bytes, size_t len,
                        uint64_t *seq);

typedef enum xvfs_step_kind {
    XVFS_STEP_MOVED, XVFS_STEP_ANSWERED, XVFS_STEP_SLEEPING, XVFS_STEP_IDLE,
    XVFS_STEP_MEMORY,   /* memory to begin the operation was refused; the next step begins it */
    XVFS_STEP_SHUT_DOWN, XVFS_STEP_HALTED /* never */
} xvfs_step_kind;
typedef enum xvfs_why {
    XVFS_WHY_NONE, XVFS_WHY_COMMITTING, XVFS_WHY_LOG_FULL, XVFS_WHY_INODE_HELD, XVFS_WHY_BUFFER_HELD,
    XVFS_WHY_NO_BUFFER, XVFS_WHY_ANSWERS_FULL
} xvfs_why;
typedef struct {
    xvfs_step_kind step;
    xvfs_why why;        /* of XVFS_STEP_SLEEPING; else XVFS_WHY_NONE */
    uint32_t wrote;      /* 1: `block` was written, and `bytes` has what it holds now; else 0 */
    uint32_t block;      /* its number; else 0 */
    uint32_t synced;     /* 1: the disk was synced, by XVFS_HOLD, and nothing was written; else 0 */
    uint32_t by;         /* of XVFS_STEP_SLEEPING: who holds what it waits for; else XVFS_NOBODY */
    uint64_t committed;  /* groups that a stop keeps, once this is done to the device */
    uint64_t reserved[4];
} xvfs_stepped;

/*
 * One step of process `pid`: the beginning of the operation that waits, one block got or looked at,
 * the end of an operation in the log, or one write or sync of a commit. `bytes` has XVFS_BLOCK_SIZE
 * bytes.
 *
 * A group of the log is committed when no operation of it is open. So who makes the first step of the
 * next operation before the one under way goes on to its answer, and so on, has large groups and few
 * writes. An answer is told then once `committed` has reached its group.
 *
 * Where it sleeps for an inode or a buffer, `by` is the process that holds that. For the log, for any
 * buffer, or for room for answers it waits for no one process, and `by` is XVFS_NOBODY.
 *
 * Where `wrote` is 0 the session's image is as it was. Where it is 1 it is the image of before with
 * these bytes as its block of that number: write them to the device, whole or not at all, before the
 * next step, before the answer is passed on, and before `committed` is told to anyone. Where `synced`
 * is 1, flush the device before these. If that write or flush fails, close the session, and open one
 * over what the device holds.
 *
 * Proved: the step is what the kernel promises of one (kernel::Kernel::step), and recovery of the
 * image now, and of that of before, is sound, with the opening's files after the changing operations
 * of the committed groups, in the order of their turns. With XVFS_HOLD so is recovery of the image of
 * the last told sync with any of the writes told since. On a refusal nothing happened.
 *
 * XVFS_E_NO_PROCESS, XVFS_E_NO_BLOCK, XVFS_E_WRITES.
 */
xvfs_result xvfs_step(xvfs *fs, uint32_t pid, xvfs_stepped *out, uint8_t *bytes, size_t len);

typedef enum xvfs_reply {
    XVFS_REPLY_MADE, XVFS_REPLY_WROTE, XVFS_REPLY_BYTES, XVFS_REPLY_DONE, XVFS_REPLY_STAT,
    /* refusals, which changed nothing: */
    XVFS_REPLY_NO_INODE, XVFS_REPLY_NO_FILE, XVFS_REPLY_BAD_OFFSET, XVFS_REPLY_TOO_BIG,
    XVFS_REPLY_TOO_LONG, XVFS_REPLY_BAD_TYPE
} xvfs_reply;
typedef struct {
    uint64_t seq;
    uint64_t group;    /* outlives a stop once `committed` has reached it; 0 for a question */
    xvfs_reply reply;
    uint32_t value;    /* the new inode number, the bytes written, or the type */
    uint32_t size;     /* of XVFS_REPLY_STAT: the file's length */
    uint32_t len;      /* of XVFS_REPLY_BYTES: how many were read, which `bytes` has */
    uint32_t links;    /* of XVFS_REPLY_STAT: the file's count of links */
    uint32_t unused;   /* not written */
    uint64_t reserved[3];
} xvfs_answer;

/* Takes the oldest answer of a process, with all its bytes. Where they are more than `len`, it stays the
 * oldest, and takes none of the XVFS_PLACES any more: XVFS_TRANSFER bytes always suffice. NULL will do
 * where `len` is 0. On a refusal nothing is written.
 * XVFS_E_NO_PROCESS, XVFS_E_NO_ANSWER, XVFS_E_SHORT. */
xvfs_result xvfs_poll(xvfs *fs, uint32_t pid, xvfs_answer *out, uint8_t *bytes, size_t len);

/* No operation begins from now on. Those that began go on to their ends. */
void xvfs_shut(xvfs *fs);

/* Ends the session and frees its memory. What was not committed is lost, as by a stop. */
void xvfs_close(xvfs *fs);

/* The archive's functions take no null pointer. Where `len` is 0 these two pass the address of a byte, as
 * who calls the archive from another language has to. */
static inline xvfs_result xvfs_submit_bytes(xvfs *fs, uint32_t pid, const xvfs_op *op,
                                            const uint8_t *bytes, size_t len, uint64_t *seq) {
    uint8_t none = 0;
    return xvfs_submit(fs, pid, op, len ? bytes : &none, len, seq);
}
static inline xvfs_result xvfs_poll_bytes(xvfs *fs, uint32_t pid, xvfs_answer *out, uint8_t *bytes,
                                          size_t len) {
    uint8_t none = 0;
    return xvfs_poll(fs, pid, out, len ? bytes : &none, len);
}
#define xvfs_submit xvfs_submit_bytes
#define xvfs_poll   xvfs_poll_bytes

/* The same calls for who cannot be sure of the handle. */
static inline xvfs_result xvfs_try_open(xvfs *fs, const uint8_t *image, size_t len,
                                        uint32_t processes, uint32_t flags) {
    if (fs->session) return XVFS_E_OPEN;
    return xvfs_open(fs, image, len, processes, flags);
}
static inline xvfs_result xvfs_try_submit(xvfs *fs, uint32_t pid, const xvfs_op *op,
                                          const uint8_t *bytes, size_t len, uint64_t *seq) {
    if (!fs->session) return XVFS_E_CLOSED;
    return xvfs_submit(fs, pid, op, bytes, len, seq);
}
static inline xvfs_result xvfs_try_step(xvfs *fs, uint32_t pid, xvfs_stepped *out, uint8_t *bytes,
                                        size_t len) {
    if (!fs->session) return XVFS_E_CLOSED;
    return xvfs_step(fs, pid, out, bytes, len);
}
static inline xvfs_result xvfs_try_poll(xvfs *fs, uint32_t pid, xvfs_answer *out, uint8_t *bytes,
                                        size_t len) {
    if (!fs->session) return XVFS_E_CLOSED;
    return xvfs_poll(fs, pid, out, bytes, len);
}
static inline void xvfs_end(xvfs *fs) { if (fs->session) xvfs_close(fs); }

/* A result in words; `at` of a report, and XVFS_LAYER, say more. */
static inline const char *xvfs_strerror(xvfs_result result) {
    switch (result) {
    case XVFS_OK: return "done";
    case XVFS_E_FILE_LENGTH: return "the length is not that of 1 to 8191 blocks";
    case XVFS_E_MKFS_SIZE: return "no image has this size and so many inodes";
    case XVFS_E_MKFS_INODES: return "the number of inodes is not from 2 to 1024";
    case XVFS_E_BAD_MAGIC: return "the superblock has another magic number";
    case XVFS_E_BAD_GEOMETRY: return "the superblock is not that of an image of this size";
    case XVFS_E_BAD_LOG: case XVFS_E_RECOVER_LOG: return "the log's header is not lawful";
    case XVFS_E_BAD_TYPE: return "an inode has a type over 3";
    case XVFS_E_BAD_SIZE: return "an inode is longer than a file can be";
    case XVFS_E_BAD_ADDRESS: return "an inode lacks an address, or has one outside the data blocks";
    case XVFS_E_TWICE_USED: return "a block is at two places";
    case XVFS_E_USED_BUT_FREE: return "a block is used, and the bitmap says that it is free";
    case XVFS_E_LOST_BLOCK: return "a block is at no place, and the bitmap says that it is used";
    case XVFS_E_MKFS_MEMORY: case XVFS_E_CHECK_MEMORY: case XVFS_E_RECOVER_MEMORY:
    case XVFS_E_OPEN_MEMORY: case XVFS_E_SUBMIT_MEMORY: return "memory was refused";
    case XVFS_E_OPEN_PROCESSES: return "a kernel has 1 to 32 processes";
    case XVFS_E_OPEN_FLAGS: return "there is no such flag";
    case XVFS_E_LOGGED: return "the log is not empty: the device is to be recovered first";
    case XVFS_E_NO_PROCESS: return "no process has that number";
    case XVFS_E_FULL: return "16 operations of the process wait";
    case XVFS_E_NO_OPERATION: return "no operation is of that kind, or has such a type or count of links";
    case XVFS_E_NO_BLOCK: return "the memory for a block has not 1024 bytes";
    case XVFS_E_WRITES: return "the session made 2^63 writes or syncs";
    case XVFS_E_NO_ANSWER: return "no answer waits";
    case XVFS_E_CLOSED: return "the handle is closed";
    case XVFS_E_OPEN: return "the handle is open";
    case XVFS_E_SHORT: return "the answer has more bytes than there is room for";
    case XVFS_E_DEVICE: case XVFS_E_MKFS_DISK: case XVFS_E_CHECK_DISK: case XVFS_E_RECOVER_DISK:
    case XVFS_E_RECOVER_SYNC: return "the device failed";
    case XVFS_E_NOT_KEPT: return "a stop may still lose the oldest answer";
    case XVFS_E_SLEEPS: return "the operation waits for another process";
    case XVFS_E_BEGIN_MEMORY: return "the operation waits: memory was refused";
    case XVFS_E_SHUT: return "no operation begins any more";
    }
    return "no result of xvfs";
}

/* As the library was compiled: crates/xvfs_c/src/report.rt has the same structs. */
#define XVFS_OTHERWISE "xvfs.h: the compiler lays this out otherwise than the library"
#if defined(__cplusplus) && __cplusplus >= 201103L
#define XVFS_ASSERT(is_so) static_assert(is_so, XVFS_OTHERWISE)
#elif defined(__STDC_VERSION__) && __STDC_VERSION__ >= 201112L
#define XVFS_ASSERT(is_so) _Static_assert(is_so, XVFS_OTHERWISE)
#endif
#ifdef XVFS_ASSERT
#define XVFS_AT(type, field, place) XVFS_ASSERT(offsetof(type, field) == (place))
XVFS_ASSERT(sizeof(xvfs) == 8 && sizeof(size_t) == 8 && sizeof(xvfs_result) == 4);
XVFS_AT(xvfs_report, fault, 0);
XVFS_AT(xvfs_report, at, 4);
XVFS_AT(xvfs_report, form, 8);
XVFS_AT(xvfs_report, size, 12);
XVFS_AT(xvfs_report, nblocks, 16);
XVFS_AT(xvfs_report, ninodes, 20);
XVFS_AT(xvfs_report, logged, 24);
XVFS_AT(xvfs_report, files, 28);
XVFS_AT(xvfs_told, wrote, 0);
XVFS_AT(xvfs_told, block, 4);
XVFS_AT(xvfs_told, synced, 8);
XVFS_AT(xvfs_op, kind, 0);
XVFS_AT(xvfs_op, inum, 4);
XVFS_AT(xvfs_op, offset, 8);
XVFS_AT(xvfs_op, len, 12);
XVFS_AT(xvfs_stepped, step, 0);
XVFS_AT(xvfs_stepped, why, 4);
XVFS_AT(xvfs_stepped, wrote, 8);
XVFS_AT(xvfs_stepped, block, 12);
XVFS_AT(xvfs_stepped, synced, 16);
XVFS_AT(xvfs_stepped, by, 20);
XVFS_AT(xvfs_stepped, committed, 24);
XVFS_AT(xvfs_answer, seq, 0);
XVFS_AT(xvfs_answer, group, 8);
XVFS_AT(xvfs_answer, reply, 16);
XVFS_AT(xvfs_answer, value, 20);
XVFS_AT(xvfs_answer, size, 24);
XVFS_AT(xvfs_answer, len, 28);
XVFS_AT(xvfs_answer, links, 32);
XVFS_ASSERT(sizeof(xvfs_report) == 64 && sizeof(xvfs_told) == 32 && sizeof(xvfs_op) == 16);
XVFS_ASSERT(sizeof(xvfs_stepped) == 64 && sizeof(xvfs_answer) == 64);
#undef XVFS_AT
#undef XVFS_ASSERT
#endif
#undef XVFS_OTHERWISE

#ifdef __cplusplus
}
#endif
#endif
