/*
 * Any arguments that the duties of a caller allow, in any order: a refusal has the number that xvfs.h says
 * for it, and touches no output; what is no refusal writes its own fields, and no byte beside them. Bytes
 * of any length stand before a page that can't be read, those that are read only in memory that can't be
 * written. A fortieth of the calls for memory is refused.
 *
 * usage: arguments SEED RUNS
 */
#include <stdio.h>
#include <stdlib.h>
#include <string.h>

#include "second.h"
#include "trial.h"

#define MOST_BLOCKS 140u
#define ALL (MOST_BLOCKS * XVFS_BLOCK_SIZE)
#define CALLS 3000u      /* of a run */
#define LONGEST 100000u  /* bytes */
#define RESULTS 0x80eu

static uint8_t device[ALL], bytes[LONGEST];
static size_t len;
static uint32_t processes;
static xvfs fs = XVFS_CLOSED_HANDLE;
static struct guarded given_op, given, opened, whole, out, number, into;
static int is_shut;
static struct {
    uint64_t submitted, answered, polled, kept; /* the last: 1 where the oldest was too long */
} counts[XVFS_PROCESSES];
static unsigned long refusals[RESULTS], calls;

/* Notes a result. */
static xvfs_result note(xvfs_result result) {
    MUST(result < RESULTS);
    refusals[result] += result != XVFS_OK;
    return result;
}

static uint32_t any_process(void) {
    return !one_in(5) ? below(processes) : one_in(2) ? below(64) : UINT32_MAX - below(3);
}

static uint32_t any_number(uint32_t likely) {
    return !one_in(4) ? below(likely) : one_in(2) ? below(100000) : UINT32_MAX - below(3);
}

static size_t any_length(void) {
    return !one_in(3) ? below(3200) : one_in(4) ? XVFS_TRANSFER + below(LONGEST - XVFS_TRANSFER) : below(2);
}

static void open_session(void) {
    uint32_t recovered;
    xvfs_result result;
    REPEAT(result, note(xvfs_recover(device, len, &recovered)));
    MUST(result == XVFS_OK);
    REPEAT(result, note(xvfs_try_open(&fs, device, len, processes, below(2))));
    MUST(result == XVFS_OK);
    is_shut = 0;
    memset(counts, 0, sizeof counts);
}

static int may_begin(const xvfs_op *op) {
    if (op->kind == XVFS_OP_CREATE) return op->inum <= 65535;
    if (op->kind == XVFS_OP_LINKS) return op->len <= 65535;
    return (uint32_t)op->kind <= XVFS_OP_RESIZE;
}

static void submit(void) {
    static const xvfs_op_kind likely[] = {XVFS_OP_CREATE, XVFS_OP_WRITE, XVFS_OP_READ};
    xvfs_op op = {one_in(20) ? (xvfs_op_kind)(8 + below(100)) : (xvfs_op_kind)below(8), any_number(8),
                  any_number(4000), any_number(4000)};
    if (one_in(2)) op = (xvfs_op){likely[below(3)], 1, 0, below(XVFS_TRANSFER)};
    uint32_t pid = any_process();
    size_t count = any_length();
    uint64_t *told = blank(&number, sizeof *told);
    const xvfs_op *from = lay(&given_op, &op, sizeof op);
    const uint8_t *written = count || one_in(2) ? lay(&given, bytes, count) : NULL;
    xvfs_result result = note(xvfs_submit(&fs, pid, from, written, count, told));
    MUST(is_blank(&number, sizeof *told, result ? 0 : sizeof *told));
    if (result == XVFS_E_SUBMIT_MEMORY) return;
    if (!may_begin(&op)) {
        MUST(result == XVFS_E_NO_OPERATION);
    } else if (pid >= processes) {
        MUST(result == XVFS_E_NO_PROCESS);
    } else {
        uint64_t left = counts[pid].submitted - counts[pid].answered; /* one of them may be under way */
        MUST(result == XVFS_E_FULL ? left >= XVFS_PLACES : result == XVFS_OK && left <= XVFS_PLACES);
        if (result == XVFS_OK) MUST(*told == ++counts[pid].submitted);
    }
}

static void see_step(uint32_t pid, const xvfs_stepped *stepped, const uint8_t *block) {
    uint64_t waiting = counts[pid].answered - counts[pid].polled - counts[pid].kept;
    MUST(stepped->step < XVFS_STEP_HALTED && stepped->wrote + stepped->synced <= 1);
    MUST((stepped->step == XVFS_STEP_SLEEPING) == (stepped->why != XVFS_WHY_NONE));
    MUST(stepped->why <= XVFS_WHY_ANSWERS_FULL);
    if (stepped->why == XVFS_WHY_INODE_HELD || stepped->why == XVFS_WHY_BUFFER_HELD)
        MUST(stepped->by < processes && stepped->by != pid);
    else MUST(stepped->by == XVFS_NOBODY);
    MUST(stepped->wrote ? stepped->block < len / XVFS_BLOCK_SIZE : stepped->block == 0);
    if (stepped->why == XVFS_WHY_ANSWERS_FULL) MUST(waiting == XVFS_PLACES);
    if (stepped->step == XVFS_STEP_IDLE) MUST(counts[pid].submitted == counts[pid].answered);
    if (stepped->step == XVFS_STEP_SHUT_DOWN) MUST(is_shut);
    counts[pid].answered += stepped->step == XVFS_STEP_ANSWERED;
    if (stepped->wrote) memcpy(device + stepped->block * XVFS_BLOCK_SIZE, block, XVFS_BLOCK_SIZE);
}

static void step(void) {
    size_t count = !one_in(10) ? XVFS_BLOCK_SIZE : one_in(2) ? below(XVFS_BLOCK_SIZE) : 1025 + below(9000);
    uint32_t pid = any_process();
    xvfs_stepped *stepped = blank(&out, sizeof *stepped);
    uint8_t *block = blank(&into, count);
    xvfs_result result = note(xvfs_step(&fs, pid, stepped, block, count)), wanted = XVFS_OK;
    if (count != XVFS_BLOCK_SIZE) wanted = XVFS_E_NO_BLOCK;
    if (pid >= processes) wanted = XVFS_E_NO_PROCESS;
    MUST(result == wanted);
    MUST(is_blank(&out, sizeof *stepped, result ? 0 : offsetof(xvfs_stepped, reserved)));
    MUST(is_blank(&into, count, !result && stepped->wrote ? count : 0));
    if (result) return;
    see_step(pid, stepped, block);
}

static void poll(void) {
    size_t count = one_in(3) ? 0 : below(3200), written = 0;
    uint32_t pid = any_process();
    xvfs_answer *answer = blank(&out, sizeof *answer);
    uint8_t *answered = blank(&into, count);
    if (count == 0 && one_in(2)) answered = NULL;
    xvfs_result result = note(xvfs_poll(&fs, pid, answer, answered, count)), wanted = XVFS_OK;
    if (pid >= processes) wanted = XVFS_E_NO_PROCESS;
    else if (counts[pid].answered == counts[pid].polled) wanted = XVFS_E_NO_ANSWER;
    MUST(result == wanted || (result == XVFS_E_SHORT && wanted == XVFS_OK && count < XVFS_TRANSFER));
    MUST(is_blank(&out, sizeof *answer, result ? 0 : offsetof(xvfs_answer, reserved)));
    if (result == XVFS_OK && answer->reply == XVFS_REPLY_BYTES) written = answer->len;
    MUST(written <= count && is_blank(&into, count, written));
    if (result == XVFS_E_SHORT) counts[pid].kept = 1;
    if (result) return;
    counts[pid].kept = 0;
    MUST(answer->reply <= XVFS_REPLY_BAD_TYPE && answer->seq == ++counts[pid].polled);
    MUST(answer->len == written && written <= XVFS_TRANSFER);
}

/* An opening with a flag, a number of processes or a length that there isn't, or of the open handle. */
static void open_wrongly(void) {
    static const size_t lengths[] = {0, 1, XVFS_BLOCK_SIZE - 1, XVFS_BLOCK_SIZE + 1};
    xvfs other = XVFS_CLOSED_HANDLE;
    uint32_t flag = one_in(4) ? UINT32_MAX : 2 + below(100);
    uint32_t count = one_in(2) ? 0 : XVFS_PROCESSES + 1 + any_number(100) / 2;
    switch (below(4)) {
    case 0: MUST(note(xvfs_open(&other, device, len, 1, flag)) == XVFS_E_OPEN_FLAGS); break;
    case 1: {
        xvfs_result result = note(xvfs_open(&other, device, len, count, below(2)));
        MUST(result == XVFS_E_OPEN_PROCESSES || is_of_memory(result));
        break;
    }
    case 2:
        MUST(note(xvfs_open(&other, device, lengths[below(4)], 1, 0)) == XVFS_E_FILE_LENGTH);
        break;
    default: MUST(note(xvfs_try_open(&fs, device, len, 1, 0)) == XVFS_E_OPEN);
    }
    MUST(!other.session);
}

/* A new image of any numbers: made as the second implementation makes it, or refused as there. */
static void make_any(void) {
    static uint8_t wanted[ALL];
    size_t count = one_in(4) ? below(4000) : XVFS_BLOCK_SIZE * (size_t)below(MOST_BLOCKS);
    uint32_t ninodes = one_in(4) ? any_number(3) : below(300), form = any_number(4);
    uint8_t *made = blank(&whole, count);
    xvfs_result result = note(xvfs_mkfs(made, count, ninodes, form));
    if (result == XVFS_E_MKFS_MEMORY) {
        MUST(is_blank(&whole, count, 0));
        return;
    }
    MUST(result == second_mkfs(wanted, count, ninodes, form));
    MUST(is_blank(&whole, count, result ? 0 : count));
    if (result == XVFS_OK) MUST(memcmp(made, wanted, count) == 0);
}

/* The device, at any moment, is sound as the second implementation says, or memory is refused. */
static void look(void) {
    const uint8_t *from = lay(&opened, device, len);
    xvfs_report wanted, *report = blank(&out, sizeof *report);
    xvfs_result result = note(xvfs_check(from, len, report));
    size_t written = offsetof(xvfs_report, reserved);
    MUST(second_check(device, len, &wanted) == XVFS_OK);
    if (result == XVFS_E_CHECK_MEMORY) {
        MUST(report->fault == result && is_blank(&out, sizeof *report, offsetof(xvfs_report, form)));
        return;
    }
    MUST(result == XVFS_OK && memcmp(report, &wanted, written) == 0);
    MUST(is_blank(&out, sizeof *report, written));
}

/* No image of such a length. */
static void look_wrongly(void) {
    size_t count = XVFS_BLOCK_SIZE * (size_t)(one_in(2) ? 0 : below(90)) + 1 + below(XVFS_BLOCK_SIZE - 1);
    const uint8_t *from = lay(&given, bytes, count);
    uint32_t recovered = 77;
    xvfs_report *report = blank(&out, sizeof *report);
    uint8_t *block = blank(&into, XVFS_BLOCK_SIZE);
    MUST(note(xvfs_check(from, count, report)) == XVFS_E_FILE_LENGTH);
    MUST(xvfs_recover(blank(&whole, count), count, &recovered) == XVFS_E_FILE_LENGTH && recovered == 77);
    MUST(is_blank(&whole, count, 0) && is_blank(&out, sizeof *report, 0));
    MUST(xvfs_recover_step(from, count, below(9), blank(&out, sizeof(xvfs_told)), block, XVFS_BLOCK_SIZE) ==
         XVFS_E_FILE_LENGTH);
    MUST(is_blank(&out, sizeof(xvfs_told), 0) && is_blank(&into, XVFS_BLOCK_SIZE, 0));
}

/* Ends the session; each call says that it is closed, and another is opened. */
static void end(void) {
    xvfs_op op = {XVFS_OP_STAT, 1, 0, 0};
    xvfs_stepped *stepped = blank(&out, sizeof *stepped);
    uint8_t *block = blank(&into, XVFS_BLOCK_SIZE);
    uint64_t *told = blank(&number, sizeof *told);
    xvfs_end(&fs);
    MUST(!fs.session && memory.blocks == 0);
    xvfs_end(&fs);
    MUST(note(xvfs_try_step(&fs, 0, stepped, block, XVFS_BLOCK_SIZE)) == XVFS_E_CLOSED);
    MUST(xvfs_try_submit(&fs, 0, &op, block, 0, told) == XVFS_E_CLOSED);
    MUST(xvfs_try_poll(&fs, 0, blank(&out, sizeof(xvfs_answer)), block, 0) == XVFS_E_CLOSED);
    MUST(is_blank(&out, sizeof(xvfs_answer), 0) && is_blank(&number, sizeof *told, 0));
    MUST(is_blank(&into, XVFS_BLOCK_SIZE, 0));
    open_session();
}

static void call_any(void) {
    uint32_t kind = below(60);
    calls += 1;
    if (kind < 20) submit();
    else if (kind < 53) step();
    else if (kind < 56) poll();
    else if (kind == 56) open_wrongly();
    else if (kind == 57) make_any();
    else if (kind == 58) look_wrongly();
    else if (one_in(2)) look();
    else if (one_in(10)) end();
    else if (one_in(10)) xvfs_shut(&fs), is_shut = 1;
}

static void run(uint64_t seed) {
    xvfs_result result;
    start_numbers(seed);
    processes = 1 + below(XVFS_PROCESSES);
    len = (45 + below(MOST_BLOCKS - 44)) * XVFS_BLOCK_SIZE;
    memory.refuse_one_in = 40;
    REPEAT(result, xvfs_mkfs(device, len, 2 + below(60), 1 + below(2)));
    MUST(result == XVFS_OK);
    open_session();
    for (unsigned k = 0; k < CALLS; k++) call_any();
    xvfs_end(&fs);
    MUST(memory.blocks == 0);
}

int main(int argc, char **argv) {
    static const xvfs_result seen[] = {
        XVFS_E_FILE_LENGTH,  XVFS_E_MKFS_SIZE,   XVFS_E_MKFS_INODES,    XVFS_E_MKFS_MEMORY,
        XVFS_E_CHECK_MEMORY, XVFS_E_OPEN_MEMORY, XVFS_E_OPEN_PROCESSES, XVFS_E_OPEN_FLAGS,
        XVFS_E_NO_PROCESS,   XVFS_E_FULL,        XVFS_E_NO_OPERATION,   XVFS_E_NO_BLOCK,
        XVFS_E_SUBMIT_MEMORY, XVFS_E_NO_ANSWER,  XVFS_E_CLOSED,         XVFS_E_OPEN,
        XVFS_E_SHORT};
    if (argc != 3) return 2;
    uint64_t seed = strtoull(argv[1], NULL, 10);
    unsigned runs = (unsigned)atoi(argv[2]);
    guard(&given_op, sizeof(xvfs_op));
    guard(&given, LONGEST);
    guard(&opened, ALL);
    guard(&whole, ALL);
    guard(&out, sizeof(xvfs_report));
    guard(&number, sizeof(uint64_t));
    guard(&into, 1025 + 9000);
    for (unsigned k = 1; k <= runs; k++) run(seed * 1000003 + k);
    for (unsigned k = 0; runs >= 20 && k < sizeof seen / sizeof *seen; k++) MUST(refusals[seen[k]] > 0);
    printf("%u runs, %lu calls with any arguments: each refusal has its number, and touches no output\n",
           runs, calls);
    return 0;
}
