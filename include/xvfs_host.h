/*
 * xvfs_host.h: the host's four duties of xvfs.h as code, over a device of three functions. It takes no
 * memory, and calls nothing but the library and the device.
 *
 *     static xvfs_host host = XVFS_CLOSED_HOST;
 *     xvfs_device device = {&disk, read_block, write_block, sync_disk};
 *     result = xvfs_host_open(&host, &device, image, sizeof image, 4, XVFS_HOLD);
 *     if (!result) result = xvfs_host_call(&host, 0, op, bytes, count, &answer, into, sizeof into);
 *
 * What it keeps, whatever calls are made: the device is synced, and recovered as told, before a session
 * is opened over what it holds; each told write is handed to it before the next step; a sync follows
 * where it is due; an answer comes only once no stop can lose what it tells of. Where a write or a sync
 * fails the session ends at once, and each later call but xvfs_host_close answers XVFS_E_DEVICE.
 *
 * WHAT IS LEFT TO THE DEVICE. Each function answers 0, or anything else where it failed.
 *  - read fills `bytes`, of XVFS_BLOCK_SIZE bytes, with the block of that number.
 *  - write brings a block to the device, whole or not at all. It may hold writes back until the next
 *    sync, and a stop may lose any of these; two of one block stay in their order.
 *  - sync answers 0 only where all writes before it outlive a stop.
 *  - After a failure the device is opened anew before the host is: read has to tell what the device
 *    holds. (Where an fsync failed, Linux may answer reads from pages that never come to the disk.)
 *
 * A host is handed to one call at a time, as a session is, and isn't copied while it is open. It has
 * some 3 KiB. Its fields are its own: a step that is made by xvfs_step of `fs` breaks what is said above.
 * Bytes of length 0 may be NULL.
 */
#ifndef XVFS_HOST_H
#define XVFS_HOST_H

#include "xvfs.h"

#ifdef __cplusplus
extern "C" {
#endif

typedef struct {
    void *context; /* handed to each function */
    int (*read)(void *context, uint32_t block, uint8_t *bytes);
    int (*write)(void *context, uint32_t block, const uint8_t *bytes);
    int (*sync)(void *context);
} xvfs_device;

typedef struct {
    xvfs fs;
    xvfs_device device;
    uint64_t committed;    /* groups that no stop loses, by what the device was told and answered */
    uint32_t flags;
    uint32_t has_failed;
    uint8_t block[XVFS_BLOCK_SIZE];
    xvfs_answer early[XVFS_PROCESSES]; /* of each process the answer that isn't kept yet; `seq` 0: none */
} xvfs_host;

#ifdef __cplusplus
#define XVFS_CLOSED_HOST {}
#else
#define XVFS_CLOSED_HOST {0}
#endif

/* Parts of the calls below. */

/* Does what was told: a failure ends the session for good. */
static inline xvfs_result xvfs_host_do(xvfs_host *host, uint32_t wrote, uint32_t block, uint32_t syncs) {
    int is_done = !wrote || host->device.write(host->device.context, block, host->block) == 0;
    if (is_done && syncs) is_done = host->device.sync(host->device.context) == 0;
    if (is_done) return XVFS_OK;
    host->has_failed = 1;
    xvfs_end(&host->fs);
    return XVFS_E_DEVICE;
}

static inline xvfs_result xvfs_host_ready(const xvfs_host *host) {
    if (host->has_failed) return XVFS_E_DEVICE;
    return host->fs.session ? XVFS_OK : XVFS_E_CLOSED;
}

static inline xvfs_result xvfs_host_read(const xvfs_device *device, uint8_t *image, size_t len) {
    uint32_t block;
    if (len % XVFS_BLOCK_SIZE || len / XVFS_BLOCK_SIZE > XVFS_MAX_BLOCKS) return XVFS_E_FILE_LENGTH;
    for (block = 0; block < len / XVFS_BLOCK_SIZE; block++, image += XVFS_BLOCK_SIZE)
        if (device->read(device->context, block, image)) return XVFS_E_DEVICE;
    return XVFS_OK;
}

/* Recovers the device, which has `image`; how many places told something. */
static inline xvfs_result xvfs_host_recover(xvfs_host *host, const uint8_t *image, size_t len,
                                            uint32_t *places) {
    xvfs_told told;
    xvfs_result result;
    for (*places = 0;; ++*places) {
        result = xvfs_recover_step(image, len, *places, &told, host->block, sizeof host->block);
        if (result || (!told.wrote && !told.synced)) return result;
        result = xvfs_host_do(host, told.wrote, told.block, told.synced);
        if (result) return result;
    }
}

/* The calls. */

/* Makes an empty image on the device, of `len` bytes: `image` is memory for it. A stop leaves what was
 * there, or no image, or the whole new one. XVFS_E_DEVICE, and the results of xvfs_mkfs. */
static inline xvfs_result xvfs_host_mkfs(const xvfs_device *device, uint8_t *image, size_t len,
                                         uint32_t ninodes, uint32_t form) {
    static const uint8_t nothing[XVFS_BLOCK_SIZE] = {0};
    uint32_t block;
    xvfs_result result = xvfs_mkfs(image, len, ninodes, form);
    if (result) return result;
    /* Block 1, without which there is no image, goes first and comes last. */
    if (device->write(device->context, 1, nothing) || device->sync(device->context)) return XVFS_E_DEVICE;
    for (block = 0; block < len / XVFS_BLOCK_SIZE; block++) {
        const uint8_t *bytes = image + (size_t)block * XVFS_BLOCK_SIZE;
        if (block != 1 && device->write(device->context, block, bytes)) return XVFS_E_DEVICE;
    }
    if (device->sync(device->context)) return XVFS_E_DEVICE;
    if (device->write(device->context, 1, image + XVFS_BLOCK_SIZE)) return XVFS_E_DEVICE;
    return device->sync(device->context) ? XVFS_E_DEVICE : XVFS_OK;
}

/* Recovers the device, which has `len` bytes, and opens a session of so many processes over it. `image`
 * is memory for these bytes, free again behind the call. With XVFS_HOLD the device is synced where steps
 * tell it, four times a commit, else behind each write. On a refusal no session is open. XVFS_E_OPEN of
 * an open host, XVFS_E_DEVICE, and the results of xvfs_recover_step and xvfs_open. */
static inline xvfs_result xvfs_host_open(xvfs_host *host, const xvfs_device *device, uint8_t *image,
                                         size_t len, uint32_t processes, uint32_t flags) {
    uint32_t pid, places = 0;
    xvfs_result result;
    if (host->has_failed) return XVFS_E_DEVICE;
    if (host->fs.session) return XVFS_E_OPEN;
    host->device = *device;
    host->flags = flags;
    host->committed = 0;
    for (pid = 0; pid < XVFS_PROCESSES; pid++) host->early[pid].seq = 0;
    result = xvfs_host_do(host, 0, 0, 1); /* it may still hold what a host wrote that was killed */
    if (!result) result = xvfs_host_read(device, image, len);
    if (!result) result = xvfs_host_recover(host, image, len, &places);
    if (!result && places) result = xvfs_host_read(device, image, len);
    if (!result) result = xvfs_open(&host->fs, image, len, processes, flags);
    return result == XVFS_E_LOGGED ? XVFS_E_DEVICE : result; /* the device hasn't what it was told */
}

/* Hands an operation in. XVFS_E_CLOSED, XVFS_E_DEVICE, and the results of xvfs_submit. */
static inline xvfs_result xvfs_host_submit(xvfs_host *host, uint32_t pid, xvfs_op op,
                                           const uint8_t *bytes, size_t len, uint64_t *seq) {
    xvfs_result result = xvfs_host_ready(host);
    return result ? result : xvfs_submit(&host->fs, pid, &op, bytes, len, seq);
}

/* Makes a step of a process, and does what it tells. XVFS_E_CLOSED, XVFS_E_DEVICE, and the results of
 * xvfs_step; where the device fails now, `out` tells at what. */
static inline xvfs_result xvfs_host_step(xvfs_host *host, uint32_t pid, xvfs_stepped *out) {
    xvfs_result result = xvfs_host_ready(host);
    uint32_t syncs;
    if (!result) result = xvfs_step(&host->fs, pid, out, host->block, sizeof host->block);
    if (result) return result;
    syncs = host->flags & XVFS_HOLD ? out->synced : out->wrote;
    result = xvfs_host_do(host, out->wrote, out->block, syncs);
    if (result) out->committed = host->committed;
    else host->committed = out->committed;
    return result;
}

/* Takes the oldest answer of a process, if no stop can lose what it tells. XVFS_E_CLOSED, XVFS_E_DEVICE,
 * XVFS_E_NOT_KEPT, and the results of xvfs_poll. */
static inline xvfs_result xvfs_host_poll(xvfs_host *host, uint32_t pid, xvfs_answer *out,
                                         uint8_t *bytes, size_t len) {
    xvfs_answer *early;
    xvfs_result result = xvfs_host_ready(host);
    if (result) return result;
    if (pid >= XVFS_PROCESSES) return XVFS_E_NO_PROCESS;
    early = &host->early[pid];
    /* One with bytes is a question's, of group 0, and is handed on at once. */
    if (early->seq == 0) result = xvfs_poll(&host->fs, pid, early, bytes, len);
    if (result) return result;
    if (early->group > host->committed) return XVFS_E_NOT_KEPT;
    *out = *early;
    early->seq = 0;
    return XVFS_OK;
}

/* Makes steps of a process until its operation is answered, and takes its oldest answer. Behind
 * XVFS_E_NOT_KEPT, _SLEEPS, _BEGIN_MEMORY and _SHORT it may be called again, once others went on or there
 * is memory or room. These, XVFS_E_SHUT, and the results of xvfs_host_step and xvfs_host_poll. */
static inline xvfs_result xvfs_host_finish(xvfs_host *host, uint32_t pid, xvfs_answer *out,
                                           uint8_t *bytes, size_t len) {
    xvfs_stepped stepped;
    xvfs_result result;
    do {
        result = xvfs_host_step(host, pid, &stepped);
        if (result) return result;
    } while (stepped.step == XVFS_STEP_MOVED);
    if (stepped.step == XVFS_STEP_MEMORY) return XVFS_E_BEGIN_MEMORY;
    if (stepped.step == XVFS_STEP_SLEEPING && stepped.why != XVFS_WHY_ANSWERS_FULL) return XVFS_E_SLEEPS;
    result = xvfs_host_poll(host, pid, out, bytes, len);
    if (result == XVFS_E_NO_ANSWER && stepped.step == XVFS_STEP_SHUT_DOWN) return XVFS_E_SHUT;
    return result;
}

/* Makes an operation of a process that has no other, from its beginning to its answer. `bytes`, of `len`
 * bytes, are those of a write; those of a read go to `into`. The results of xvfs_host_submit, and then
 * those of xvfs_host_finish, which goes on with it. */
static inline xvfs_result xvfs_host_call(xvfs_host *host, uint32_t pid, xvfs_op op,
                                         const uint8_t *bytes, size_t len, xvfs_answer *out,
                                         uint8_t *into, size_t size) {
    uint64_t seq;
    xvfs_result result = xvfs_host_submit(host, pid, op, bytes, len, &seq);
    return result ? result : xvfs_host_finish(host, pid, out, into, size);
}

/* No operation begins from now on. */
static inline void xvfs_host_shut(xvfs_host *host) {
    if (host->fs.session) xvfs_shut(&host->fs);
}

/* Ends the session, if one is open. A failure is forgotten: the host may be opened again. */
static inline void xvfs_host_close(xvfs_host *host) {
    xvfs_end(&host->fs);
    host->has_failed = 0;
}

#ifdef __cplusplus
}
#endif
#endif
