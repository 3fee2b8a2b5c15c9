/*
 * A hostile client: 32 processes, of which a random one steps, over files of their own, shared files and
 * any; a device that holds writes back, of which a stop loses any; memory that is refused one time in 50;
 * bytes of any length before pages that can't be read, and in memory that can't be written where they are
 * only read. At random moments it is judged what a stop would leave: recovery makes of it, as the second
 * implementation does, a sound image with the files of the committed groups (files.h), and of one group
 * more at most where the header was written and not synced. Some stops are made, and another session goes
 * on from what they left.
 *
 * usage: hostile SEED RUNS
 */
#include <stdio.h>
#include <stdlib.h>
#include <string.h>

#include "files.h"
#include "second.h"
#include "trial.h"

#define LEAST_BLOCKS 330u
#define MOST_BLOCKS 480u
#define ALL (MOST_BLOCKS * XVFS_BLOCK_SIZE)
#define HELD 256u       /* writes behind the last sync */
#define PATIENCE 4000u  /* steps that don't move */

static uint8_t device[ALL], synced[ALL]; /* all that was told, and what was synced of it */
static struct {
    uint32_t block;
    uint8_t bytes[XVFS_BLOCK_SIZE];
} held[HELD];
static unsigned held_count;
static size_t len;
static uint32_t flags;
static uint64_t committed;
static xvfs fs = XVFS_CLOSED_HANDLE;
static struct guarded given_op, given, whole, opened, out, number, block, into;
static unsigned long operations, steps, stops, one_more, restarts;

static uint8_t *at(uint8_t *of, uint32_t number) { return of + (size_t)number * XVFS_BLOCK_SIZE; }

/* Stops. */

/* What a stop leaves: of the held writes those that `chosen` has a bit of, in their order. */
static uint8_t *leave(uint64_t chosen) {
    uint8_t *left = blank(&whole, len);
    memcpy(left, synced, len);
    for (unsigned k = 0; k < held_count; k++)
        if (chosen >> k % 64 & 1) memcpy(at(left, held[k].block), held[k].bytes, XVFS_BLOCK_SIZE);
    return left;
}

/* Recovers what a stop left, as the second implementation does, to a sound image. */
static void recover(uint8_t *left) {
    static uint8_t wanted[ALL];
    xvfs_report report;
    xvfs_result result;
    uint32_t recovered, count;
    memcpy(wanted, left, len);
    MUST(second_check(wanted, len, &report) == XVFS_OK);
    count = second_recover(wanted);
    REPEAT(result, xvfs_recover(left, len, &recovered));
    MUST(result == XVFS_OK && recovered == count);
    MUST(memcmp(left, wanted, len) == 0 && is_blank(&whole, len, len));
}

static unsigned judge(uint8_t *left) {
    recover(left);
    unsigned judged = files_judge(left);
    MUST(judged != 0 && (flags || judged != 2));
    stops += 1;
    one_more += judged == 2;
    return judged;
}

/* Judges what a stop would leave now: all choices of few held writes, or some. */
static void see_stops(int is_thorough) {
    unsigned all = held_count <= 4 ? 1u << held_count : 0;
    for (unsigned k = 0; k < (is_thorough && all ? all : 2); k++) {
        uint64_t chosen = is_thorough && all ? k : (uint64_t)below(UINT32_MAX) << 32 | below(UINT32_MAX);
        judge(leave(chosen));
    }
}

/* Steps. */

static void hold_write(const xvfs_stepped *stepped, const uint8_t *bytes) {
    MUST(stepped->block >= 2 && stepped->block < len / XVFS_BLOCK_SIZE && !stepped->synced);
    memcpy(at(device, stepped->block), bytes, XVFS_BLOCK_SIZE);
    if (!flags) {
        memcpy(at(synced, stepped->block), bytes, XVFS_BLOCK_SIZE);
        return;
    }
    MUST(held_count < HELD);
    held[held_count].block = stepped->block;
    memcpy(held[held_count++].bytes, bytes, XVFS_BLOCK_SIZE);
}

static void sync_held(void) {
    MUST(flags);
    for (unsigned k = 0; k < held_count; k++)
        memcpy(at(synced, held[k].block), held[k].bytes, XVFS_BLOCK_SIZE);
    held_count = 0;
    MUST(memcmp(synced, device, len) == 0);
}

/* One step, of which all that it tells is done. */
static xvfs_stepped step(uint32_t pid) {
    xvfs_stepped *stepped = blank(&out, sizeof *stepped);
    uint8_t *bytes = blank(&block, XVFS_BLOCK_SIZE);
    MUST(xvfs_step(&fs, pid, stepped, bytes, XVFS_BLOCK_SIZE) == XVFS_OK);
    MUST(is_blank(&out, sizeof *stepped, offsetof(xvfs_stepped, reserved)));
    MUST(is_blank(&block, XVFS_BLOCK_SIZE, stepped->wrote ? XVFS_BLOCK_SIZE : 0));
    MUST(stepped->wrote + stepped->synced <= 1 && stepped->step < XVFS_STEP_HALTED);
    MUST((stepped->step == XVFS_STEP_SLEEPING) == (stepped->why != XVFS_WHY_NONE));
    if (stepped->why == XVFS_WHY_INODE_HELD || stepped->why == XVFS_WHY_BUFFER_HELD)
        MUST(stepped->by < FILES_PROCESSES && stepped->by != pid);
    else MUST(stepped->by == XVFS_NOBODY);
    MUST(stepped->committed == committed || stepped->committed == committed + 1);
    steps += 1;
    committed = stepped->committed;
    if (stepped->wrote) hold_write(stepped, bytes);
    else MUST(stepped->block == 0);
    if (stepped->synced) sync_held();
    if (stepped->step == XVFS_STEP_MOVED) files_begin(pid);
    return *stepped;
}

static void poll(uint32_t pid) {
    xvfs_answer *answer = blank(&out, sizeof *answer);
    uint8_t *bytes = blank(&into, XVFS_TRANSFER);
    MUST(xvfs_poll(&fs, pid, answer, bytes, XVFS_TRANSFER) == XVFS_OK);
    MUST(is_blank(&out, sizeof *answer, offsetof(xvfs_answer, reserved)));
    MUST(is_blank(&into, XVFS_TRANSFER, answer->len));
    files_answer(pid, answer, bytes);
    operations += 1;
}

static void hand_in(uint32_t pid) {
    static uint8_t bytes[2 * XVFS_TRANSFER];
    xvfs_op op;
    xvfs_result result;
    size_t count = files_think(pid, &op, bytes);
    uint64_t *seq = blank(&number, sizeof *seq);
    const xvfs_op *from = lay(&given_op, &op, sizeof op);
    const uint8_t *written = lay(&given, bytes, count);
    REPEAT(result, xvfs_submit(&fs, pid, from, written, count, seq));
    MUST(is_blank(&number, sizeof *seq, result ? 0 : sizeof *seq));
    MUST(result == XVFS_OK || (result == XVFS_E_FULL && files_left(pid) >= XVFS_PLACES));
    if (result) return;
    files_hand(pid);
    MUST(*seq == files_count(pid));
}

/* Whether the process moved. */
static int step_on(uint32_t pid) {
    xvfs_stepped stepped = step(pid);
    if (stepped.step == XVFS_STEP_ANSWERED) poll(pid);
    files_commit(committed);
    if (one_in(stepped.wrote || stepped.synced ? 8 : 400)) see_stops(one_in(3));
    return stepped.step == XVFS_STEP_MOVED || stepped.step == XVFS_STEP_ANSWERED;
}

/* A session, from its opening over the device. */

static void open_session(void) {
    xvfs_result result;
    const uint8_t *from = lay(&opened, device, len);
    REPEAT(result, xvfs_open(&fs, from, len, FILES_PROCESSES, flags));
    MUST(result == XVFS_OK);
    memcpy(synced, device, len);
    held_count = 0;
    committed = 0;
}

static void work(unsigned count) {
    unsigned still = 0;
    for (; count > 0; count--) {
        uint32_t pid = below(FILES_PROCESSES);
        if (files_left(pid) < 1 + below(20) && !one_in(3)) hand_in(pid);
        still = step_on(pid) ? 0 : still + 1;
        MUST(still < PATIENCE);
    }
}

/* Answers all that is handed in. Nothing is open then, and all that was answered is committed. */
static void finish(void) {
    unsigned left = 1, still = 0;
    while (left > 0) {
        left = 0;
        for (uint32_t p = 0; p < FILES_PROCESSES; p++) {
            if (files_left(p) == 0) continue;
            still = step_on(p) ? 0 : still + 1;
            left += files_left(p);
        }
        MUST(still < PATIENCE);
    }
    MUST(held_count == 0 && (judge(leave(0)) & 1));
}

/* A stop that is made: the device has what it left, recovered. */
static void stop(void) {
    unsigned judged;
    uint8_t *left = leave((uint64_t)below(UINT32_MAX) << 32 | below(UINT32_MAX));
    xvfs_close(&fs);
    MUST(memory.blocks == 0);
    judged = judge(left);
    memcpy(device, left, len);
    files_restart(device, judged);
    restarts += 1;
}

static void run(uint64_t seed) {
    start_numbers(seed);
    flags = one_in(4) ? 0 : XVFS_HOLD;
    memory.refuse_one_in = one_in(3) ? 0 : 50;
    len = (LEAST_BLOCKS + below(MOST_BLOCKS - LEAST_BLOCKS + 1)) * XVFS_BLOCK_SIZE;
    MUST(second_mkfs(device, len, FILES_INODES, 1 + below(2)) == XVFS_OK);
    files_start(device);
    for (unsigned lives = below(4); lives > 0; lives--) {
        open_session();
        work(1 + below(3000));
        stop();
    }
    open_session();
    work(1000 + below(9000));
    finish();
    xvfs_close(&fs);
    MUST(memory.blocks == 0);
}

int main(int argc, char **argv) {
    if (argc != 3) return 2;
    uint64_t seed = strtoull(argv[1], NULL, 10);
    unsigned runs = (unsigned)atoi(argv[2]);
    guard(&given_op, sizeof(xvfs_op));
    guard(&given, 2 * XVFS_TRANSFER);
    guard(&whole, ALL);
    guard(&opened, ALL);
    guard(&out, sizeof(xvfs_stepped));
    guard(&number, sizeof(uint64_t));
    guard(&block, XVFS_BLOCK_SIZE);
    guard(&into, XVFS_TRANSFER);
    for (unsigned k = 1; k <= runs; k++) run(seed * 1000003 + k);
    printf("%u runs of 32 processes: %lu operations, %lu steps, %lu refusals of memory, %lu stops judged, "
           "of which %lu kept one group more, and %lu made\n",
           runs, operations, steps, memory.refused, stops, one_more, restarts);
    return 0;
}
