/*
 * Each call for memory of each call of the library is refused in turn: it says so by its own number, leaves
 * its outputs and the image as they were, and keeps no memory. Then each one of a script of operations: it
 * ends with the same answers and device, no step takes memory but one that begins an operation, and a
 * session that is closed has given all of it back.
 *
 * usage: refusals
 */
#include <stdio.h>
#include <stdlib.h>
#include <string.h>

#include "second.h"
#include "trial.h"

#define BLOCKS 300u
#define ALL (BLOCKS * XVFS_BLOCK_SIZE)
#define PROCESSES 3u
#define SCRIPT 64u  /* operations */

static uint8_t sound[ALL], logged[ALL], image[ALL], bytes[XVFS_TRANSFER];
static struct guarded out, number, block;
static xvfs fs = XVFS_CLOSED_HANDLE;
static const xvfs_op write_op = {XVFS_OP_WRITE, 1, 0, 0};

static xvfs_result check(void) { return xvfs_check(logged, ALL, blank(&out, sizeof(xvfs_report))); }
static xvfs_result mkfs(void) { return xvfs_mkfs(image, ALL, 64, 2); }
static xvfs_result recover(void) { return xvfs_recover(image, ALL, blank(&number, sizeof(uint32_t))); }
static xvfs_result recover_step(void) {
    return xvfs_recover_step(logged, ALL, 0, blank(&out, sizeof(xvfs_told)), blank(&block, XVFS_BLOCK_SIZE),
                             XVFS_BLOCK_SIZE);
}
static xvfs_result open_session(void) {
    return xvfs_open(&fs, sound, ALL, XVFS_PROCESSES, XVFS_HOLD);
}
static xvfs_result submit(void) {
    return xvfs_submit(&fs, 0, &write_op, bytes, sizeof bytes, blank(&number, sizeof(uint64_t)));
}

/* Of a report a refusal tells the fault. */
static int check_stays(void) {
    return is_blank(&out, sizeof(xvfs_report), offsetof(xvfs_report, form));
}
static int image_stays(void) { return memcmp(image, logged, ALL) == 0; }
static int recover_stays(void) { return image_stays() && is_blank(&number, sizeof(uint32_t), 0); }
static int step_stays(void) {
    return is_blank(&out, sizeof(xvfs_told), 0) && is_blank(&block, XVFS_BLOCK_SIZE, 0);
}
static int open_stays(void) { return !fs.session; }
static int submit_stays(void) { return is_blank(&number, sizeof(uint64_t), 0); }

/* Refuses each call for memory of one call in turn: how many they were. */
static unsigned long refuse_each(xvfs_result (*make)(void), int (*stays)(void), xvfs_result first,
                                 xvfs_result second) {
    for (unsigned long k = 1;; k++) {
        long blocks = memory.blocks;
        xvfs_result result;
        memcpy(image, logged, ALL);
        memory.asked = 0;
        memory.refuse_at = k;
        result = make();
        memory.refuse_at = 0;
        if (memory.asked < k) {
            MUST(result == XVFS_OK);
            return k - 1;
        }
        MUST((result == first || result == second) && stays() && memory.blocks == blocks);
    }
}

/* The script. */

static xvfs_op operation(unsigned k) {
    xvfs_op op = {k < PROCESSES ? XVFS_OP_CREATE : (xvfs_op_kind)(k % 8), 1 + k % PROCESSES, 0, 0};
    if (op.kind == XVFS_OP_CREATE) op.inum = 2;
    if (op.kind == XVFS_OP_WRITE) op.offset = k % 3 * 2000;
    if (op.kind == XVFS_OP_READ) op.len = sizeof bytes;
    if (op.kind == XVFS_OP_LINKS) op.len = k;
    return op;
}

static uint64_t mix(uint64_t sum, const void *from, size_t count) {
    const uint8_t *at = from;
    for (size_t k = 0; k < count; k++) sum = (sum ^ at[k]) * 0x100000001b3u;
    return sum;
}

/* Steps an operation to its answer. No step but one that begins it takes memory. */
static void finish(uint32_t pid) {
    uint8_t *told = blank(&block, XVFS_BLOCK_SIZE);
    xvfs_stepped stepped;
    int has_begun = 0;
    do {
        unsigned long asked = memory.asked;
        MUST(xvfs_step(&fs, pid, &stepped, told, XVFS_BLOCK_SIZE) == XVFS_OK);
        MUST(!has_begun || memory.asked == asked);
        has_begun |= stepped.step != XVFS_STEP_MEMORY;
        if (stepped.wrote) memcpy(image + stepped.block * XVFS_BLOCK_SIZE, told, XVFS_BLOCK_SIZE);
    } while (stepped.step == XVFS_STEP_MOVED || stepped.step == XVFS_STEP_MEMORY);
    MUST(stepped.step == XVFS_STEP_ANSWERED);
}

/* Makes the script over the sound image: a sum of its answers. */
static uint64_t run(void) {
    uint64_t told, sum = 1;
    xvfs_answer answer;
    xvfs_result result;
    memset(&answer, 0, sizeof answer);
    memcpy(image, sound, ALL);
    REPEAT(result, xvfs_open(&fs, image, ALL, PROCESSES, 0));
    MUST(result == XVFS_OK);
    for (unsigned k = 0; k < SCRIPT; k++) {
        xvfs_op op = operation(k);
        memset(bytes, (int)k + 1, sizeof bytes);
        REPEAT(result, xvfs_submit(&fs, k % PROCESSES, &op, bytes, sizeof bytes, &told));
        MUST(result == XVFS_OK);
        finish(k % PROCESSES);
        MUST(xvfs_poll(&fs, k % PROCESSES, &answer, bytes, sizeof bytes) == XVFS_OK);
        sum = mix(mix(sum, &answer, sizeof answer), bytes, sizeof bytes);
    }
    xvfs_close(&fs);
    MUST(memory.blocks == 0);
    return sum;
}

static unsigned long refuse_script(void) {
    static uint8_t undisturbed[ALL];
    memory.asked = 0;
    uint64_t sum = run();
    unsigned long asked = memory.asked;
    memcpy(undisturbed, image, ALL);
    for (unsigned long k = 1; k <= asked; k++) {
        memory.asked = 0;
        memory.refuse_at = k;
        MUST(run() == sum && memcmp(image, undisturbed, ALL) == 0);
    }
    memory.refuse_at = 0;
    return asked;
}

/* An image whose log has 30 blocks, each a copy of what is at home. */
static void make(void) {
    MUST(second_mkfs(sound, ALL, 64, 2) == XVFS_OK);
    memcpy(logged, sound, ALL);
    for (uint32_t k = 0; k < 30; k++) {
        memcpy(logged + (3 + k) * XVFS_BLOCK_SIZE, logged + (33 + k) * XVFS_BLOCK_SIZE, XVFS_BLOCK_SIZE);
        logged[2 * XVFS_BLOCK_SIZE + 4 + 4 * k] = (uint8_t)(33 + k);
    }
    logged[2 * XVFS_BLOCK_SIZE] = 30;
}

int main(void) {
    unsigned long calls[6];
    guard(&out, sizeof(xvfs_report));
    guard(&number, sizeof(uint64_t));
    guard(&block, XVFS_BLOCK_SIZE);
    make();
    calls[0] = refuse_each(check, check_stays, XVFS_E_CHECK_MEMORY, XVFS_E_CHECK_MEMORY);
    calls[1] = refuse_each(mkfs, image_stays, XVFS_E_MKFS_MEMORY, XVFS_E_MKFS_MEMORY);
    calls[2] = refuse_each(recover, recover_stays, XVFS_E_CHECK_MEMORY, XVFS_E_RECOVER_MEMORY);
    calls[3] = refuse_each(recover_step, step_stays, XVFS_E_CHECK_MEMORY, XVFS_E_CHECK_MEMORY);
    calls[4] = refuse_each(open_session, open_stays, XVFS_E_CHECK_MEMORY, XVFS_E_OPEN_MEMORY);
    calls[5] = refuse_each(submit, submit_stays, XVFS_E_SUBMIT_MEMORY, XVFS_E_SUBMIT_MEMORY);
    for (unsigned k = 0; k < 6; k++) MUST(calls[k] > 0);
    xvfs_close(&fs);
    MUST(memory.blocks == 0);
    printf("each call for memory refused: check %lu, mkfs %lu, recover %lu, recover_step %lu, open %lu, "
           "submit %lu, a script %lu\n",
           calls[0], calls[1], calls[2], calls[3], calls[4], calls[5], refuse_script());
    return 0;
}
