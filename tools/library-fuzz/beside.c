/*
 * The library beside the second implementation: the same images are made, and each operation has the same
 * answer in both. Wherever all that was answered is committed, the library's device has the bytes of the
 * second image, but for those of logged blocks. Both forms, with XVFS_HOLD and without, one operation a
 * group and many; some of the library's calls for memory are refused, and some sessions are opened anew.
 *
 * usage: beside SEED RUNS
 */
#include <stdio.h>
#include <stdlib.h>
#include <string.h>

#include "second.h"
#include "trial.h"

#define MOST_BLOCKS 1200u
#define OPERATIONS 300u  /* of a run */
#define APPENDS 100u     /* so that a file has addresses of each kind */
#define FILES 6u         /* that are written and read */
#define ALL (MOST_BLOCKS * XVFS_BLOCK_SIZE)

static uint8_t device[ALL], image[ALL];
static uint8_t block[XVFS_BLOCK_SIZE], bytes[2 * XVFS_TRANSFER];
static uint8_t found[XVFS_TRANSFER], wanted[XVFS_TRANSFER]; /* by a read */
static size_t len;
static uint32_t flags, form;
static xvfs fs = XVFS_CLOSED_HANDLE;
static uint64_t committed, group, calls[2]; /* operations that a process handed in */
static int is_anchored;                     /* process 1 has one under way, so that nothing is committed */
static unsigned long operations, groups, replies[XVFS_REPLY_BAD_TYPE + 1], openings, doubles;

static void open_session(void) {
    xvfs_result result;
    REPEAT(result, xvfs_open(&fs, device, len, 2, flags));
    MUST(result == XVFS_OK);
    committed = calls[0] = calls[1] = 0;
    openings += 1;
}

static void compare_reports(void) {
    xvfs_report ours, theirs;
    xvfs_result result;
    memset(&ours, 0, sizeof ours);
    memset(&theirs, 0, sizeof theirs);
    REPEAT(result, xvfs_check(device, len, &ours));
    MUST(result == XVFS_OK && second_check(image, len, &theirs) == XVFS_OK);
    MUST(memcmp(&ours, &theirs, sizeof ours) == 0);
}

/* Logged blocks, of which the second implementation has none, are those of 3 to 32. */
static void compare_images(void) {
    size_t logged = 3 * XVFS_BLOCK_SIZE, inodes = 33 * XVFS_BLOCK_SIZE;
    MUST(memcmp(device, image, logged) == 0);
    MUST(memcmp(device + inodes, image + inodes, len - inodes) == 0);
}

static void hand_in(uint32_t pid, const xvfs_op *op, size_t count) {
    uint64_t number;
    xvfs_result result;
    REPEAT(result, xvfs_submit(&fs, pid, op, bytes, count, &number));
    MUST(result == XVFS_OK && number == ++calls[pid]);
}

static xvfs_stepped step(uint32_t pid) {
    xvfs_stepped stepped;
    do MUST(xvfs_step(&fs, pid, &stepped, block, sizeof block) == XVFS_OK);
    while (stepped.step == XVFS_STEP_MEMORY);
    if (stepped.wrote) {
        MUST(stepped.block < len / XVFS_BLOCK_SIZE);
        memcpy(device + stepped.block * XVFS_BLOCK_SIZE, block, sizeof block);
    }
    groups += stepped.committed - committed;
    committed = stepped.committed;
    return stepped;
}

/* Begins an operation of process 1 that will change nothing: until its end others join its group. */
static void drop_anchor(void) {
    xvfs_op op = {XVFS_OP_WRITE, 1, UINT32_MAX, 0};
    hand_in(1, &op, 0);
    MUST(step(1).step == XVFS_STEP_MOVED);
    is_anchored = 1;
}

static void raise_anchor(void) {
    xvfs_stepped stepped;
    xvfs_answer answer;
    do stepped = step(1);
    while (stepped.step == XVFS_STEP_MOVED);
    MUST(stepped.step == XVFS_STEP_ANSWERED);
    MUST(xvfs_poll(&fs, 1, &answer, found, 0) == XVFS_OK && answer.seq == calls[1]);
    MUST(answer.reply == XVFS_REPLY_BAD_OFFSET || answer.reply == XVFS_REPLY_NO_FILE);
    is_anchored = 0;
}

/* Makes an operation in the library. */
static void call(const xvfs_op *op, size_t count, xvfs_answer *out) {
    xvfs_stepped stepped;
    hand_in(0, op, count);
    for (;;) {
        stepped = step(0);
        if (stepped.step == XVFS_STEP_ANSWERED) break;
        if (stepped.step == XVFS_STEP_MOVED) continue;
        MUST(stepped.step == XVFS_STEP_SLEEPING && stepped.why == XVFS_WHY_LOG_FULL && is_anchored);
        raise_anchor();
    }
    MUST(xvfs_poll(&fs, 0, out, found, sizeof found) == XVFS_OK);
    MUST(out->seq == calls[0]);
    MUST(xvfs_poll(&fs, 0, out, found, sizeof found) == XVFS_E_NO_ANSWER);
}

static void compare_answers(const xvfs_op *op, const xvfs_answer *ours, const xvfs_answer *theirs) {
    MUST(ours->reply == theirs->reply && ours->value == theirs->value && ours->size == theirs->size);
    MUST(ours->len == theirs->len && ours->links == theirs->links);
    MUST(memcmp(found, wanted, sizeof found) == 0);
    if (op->kind == XVFS_OP_READ || op->kind == XVFS_OP_STAT) MUST(ours->group == 0);
    else if (ours->reply <= XVFS_REPLY_STAT) MUST(ours->group > 0 && ours->group >= group);
    if (ours->group) group = ours->group;
    replies[ours->reply] += 1;
    operations += 1;
}

static uint32_t size_of(uint32_t inum) {
    xvfs_op op = {XVFS_OP_STAT, inum, 0, 0};
    xvfs_answer answer;
    second_call(image, &op, bytes, 0, &answer, wanted);
    return answer.size;
}

/* An operation: how many bytes it writes. */
static size_t think_of(xvfs_op *op) {
    uint32_t kind = below(16), size;
    *op = (xvfs_op){kind < 8 ? (xvfs_op_kind)kind : kind < 14 ? XVFS_OP_WRITE : XVFS_OP_CREATE,
                    1 + below(FILES), 0, 0};
    if ((op->kind == XVFS_OP_TRUNC || op->kind == XVFS_OP_REMOVE) && !one_in(3)) op->kind = XVFS_OP_STAT;
    size = size_of(op->inum);
    if (op->kind == XVFS_OP_CREATE) op->inum = one_in(12) ? below(70) * 1000 % 65536 : 1 + below(3);
    if (op->kind == XVFS_OP_LINKS) op->len = below(65536);
    if (op->kind == XVFS_OP_RESIZE && one_in(2)) op->len = size + below(XVFS_TRANSFER + 9);
    else if (op->kind == XVFS_OP_RESIZE) op->len = one_in(4) ? below(3) : size + 2 - below(size / 8 + 3);
    if (op->kind == XVFS_OP_READ) {
        op->offset = below(size + 10);
        op->len = one_in(12) ? XVFS_TRANSFER + below(9) : below(XVFS_TRANSFER + 1);
    }
    if (op->kind != XVFS_OP_WRITE) return 0;
    op->offset = one_in(4) ? below(size + 3) : size;
    return one_in(12) ? XVFS_TRANSFER + below(XVFS_TRANSFER) : below(XVFS_TRANSFER + 1);
}

/* Makes an operation in both, and compares them. */
static void operate(const xvfs_op *op, size_t count) {
    xvfs_answer ours, theirs;
    for (size_t k = 0; k < count; k++) bytes[k] = (uint8_t)(operations + k % 251 + 1);
    memset(found, 0, sizeof found);
    memset(wanted, 0, sizeof wanted);
    if (!is_anchored && one_in(4)) drop_anchor();
    call(op, count, &ours);
    second_call(image, op, bytes, count, &theirs, wanted);
    compare_answers(op, &ours, &theirs);
    if (is_anchored && one_in(5)) raise_anchor();
    if (is_anchored) return;
    MUST(committed == group || ours.group == 0);
    compare_images();
}

static void make(void) {
    uint32_t blocks = 45 + below(one_in(3) ? MOST_BLOCKS - 45 : 200), ninodes = 2 + below(40);
    xvfs_result result;
    form = 1 + below(2);
    flags = one_in(2) ? XVFS_HOLD : 0;
    len = blocks * XVFS_BLOCK_SIZE;
    memset(device, 7, len);
    REPEAT(result, xvfs_mkfs(device, len, ninodes, form));
    MUST(result == second_mkfs(image, len, ninodes, form) && result == XVFS_OK);
    MUST(memcmp(device, image, len) == 0);
}

/* Lets file 1 grow until it, or the image, is full, or for a while. */
static void append(void) {
    xvfs_op create = {XVFS_OP_CREATE, 2, 0, 0}, write = {XVFS_OP_WRITE, 1, 0, 0};
    operate(&create, 0);
    for (unsigned k = 0; k < APPENDS; k++) {
        write.offset = size_of(1);
        operate(&write, XVFS_TRANSFER);
    }
    doubles += form == 2 && size_of(1) > 267 * XVFS_BLOCK_SIZE;
}

static void run(uint64_t seed) {
    start_numbers(seed);
    memory.refuse_one_in = one_in(2) ? 40 : 0;
    make();
    open_session();
    group = 0;
    if (one_in(3)) append();
    for (unsigned k = 0; k < OPERATIONS; k++) {
        xvfs_op op;
        size_t count = think_of(&op);
        operate(&op, count);
        if (is_anchored || !one_in(60)) continue;
        xvfs_close(&fs);
        compare_reports();
        open_session();
        group = 0;
    }
    if (is_anchored) raise_anchor();
    compare_images();
    xvfs_close(&fs);
    MUST(memory.blocks == 0);
}

int main(int argc, char **argv) {
    if (argc != 3) return 2;
    uint64_t seed = strtoull(argv[1], NULL, 10);
    unsigned runs = (unsigned)atoi(argv[2]);
    for (unsigned k = 1; k <= runs; k++) run(seed * 1000003 + k);
    for (unsigned k = 0; runs >= 40 && k <= XVFS_REPLY_BAD_TYPE; k++) MUST(replies[k] > 0);
    if (runs >= 40) MUST(doubles > 0);
    printf("%u runs beside a second implementation: %lu operations in %lu groups, %lu sessions, "
           "%lu refusals of memory: the same answers and images\n",
           runs, operations, groups, openings, memory.refused);
    return 0;
}
