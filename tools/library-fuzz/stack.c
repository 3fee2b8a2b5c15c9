/* How much stack each call takes, on a stack that is painted first: at most what xvfs.h says, 76 KiB
 * for xvfs_open and 4 KiB for each other call. The image is of the greatest size, and a file in it is
 * long enough to need blocks of addresses. */
#define _XOPEN_SOURCE 700
#include <stdio.h>
#include <stdlib.h>
#include <string.h>
#include <ucontext.h>

#include "xvfs.h"

#define STACK (1u << 18)

static uint8_t stack[STACK], image[XVFS_MAX_BLOCKS * XVFS_BLOCK_SIZE], block[XVFS_BLOCK_SIZE];
static uint8_t bytes[XVFS_TRANSFER];
static ucontext_t caller, callee;
static void (*body)(void);
static xvfs fs;
static xvfs_op op;
static size_t size;
static int is_well = 1;

static void must(int is_right, const char *what) {
    if (!is_right) {
        printf("stack: %s\n", what);
        exit(1);
    }
}

static void run_body(void) { body(); }

static size_t measured(void (*of)(void)) {
    size_t unused = 0;
    memset(stack, 0xa5, sizeof stack);
    body = of;
    getcontext(&callee);
    callee.uc_stack.ss_sp = stack;
    callee.uc_stack.ss_size = sizeof stack;
    callee.uc_link = &caller;
    makecontext(&callee, run_body, 0);
    swapcontext(&caller, &callee);
    while (unused < sizeof stack && stack[unused] == 0xa5) unused++;
    return sizeof stack - unused;
}

static void nothing(void) {}

static void measure(const char *name, void (*of)(void), size_t most) {
    size_t used = measured(of) - measured(nothing);
    if (used > most) {
        printf("%s takes %zu bytes of stack, and xvfs.h says %zu\n", name, used, most);
        is_well = 0;
    }
}

static void make(void) { must(xvfs_mkfs(image, sizeof image, 1024, 2) == XVFS_OK, "mkfs"); }

static void check(void) {
    xvfs_report report;
    must(xvfs_check(image, sizeof image, &report) == XVFS_OK, "check");
}

static void recover(void) {
    uint32_t recovered;
    must(xvfs_recover(image, sizeof image, &recovered) == XVFS_OK, "recover");
}

static void recover_step(void) {
    xvfs_told told;
    must(xvfs_recover_step(image, sizeof image, 0, &told, block, sizeof block) == XVFS_OK, "recover_step");
}

static void open_it(void) {
    must(xvfs_open(&fs, image, sizeof image, 32, XVFS_HOLD) == XVFS_OK, "open");
}

static void submit(void) {
    uint64_t number;
    must(xvfs_submit(&fs, 0, &op, bytes, size, &number) == XVFS_OK, "submit");
}

static void step(void) {
    xvfs_stepped stepped;
    do must(xvfs_step(&fs, 0, &stepped, block, sizeof block) == XVFS_OK, "step");
    while (stepped.step == XVFS_STEP_MOVED);
    must(stepped.step == XVFS_STEP_ANSWERED, "no answer");
}

static void poll(void) {
    xvfs_answer answer;
    must(xvfs_poll(&fs, 0, &answer, bytes, sizeof bytes) == XVFS_OK, "poll");
    must(answer.reply <= XVFS_REPLY_STAT, "refused");
}

static void shut(void) { xvfs_shut(&fs); }
static void close_it(void) { xvfs_close(&fs); }

static void operate(xvfs_op_kind kind, uint32_t number, uint32_t offset, uint32_t length) {
    op = (xvfs_op){kind, number, offset, kind == XVFS_OP_READ ? length : 0};
    size = kind == XVFS_OP_WRITE ? length : 0;
    measure("xvfs_submit", submit, 4096);
    measure("xvfs_step", step, 4096);
    measure("xvfs_poll", poll, 4096);
}

int main(void) {
    measure("xvfs_mkfs", make, 4096);
    measure("xvfs_check", check, 4096);
    measure("xvfs_recover", recover, 4096);
    measure("xvfs_recover_step", recover_step, 4096);
    measure("xvfs_open", open_it, 76 * 1024);
    operate(XVFS_OP_CREATE, 2, 0, 0);
    for (uint32_t k = 0; k < 100; k++) operate(XVFS_OP_WRITE, 1, k * XVFS_TRANSFER, XVFS_TRANSFER);
    operate(XVFS_OP_READ, 1, 5, 3000);
    operate(XVFS_OP_STAT, 1, 0, 0);
    operate(XVFS_OP_LINKS, 1, 0, 0);
    operate(XVFS_OP_TRUNC, 1, 0, 0);
    operate(XVFS_OP_REMOVE, 1, 0, 0);
    measure("xvfs_shut", shut, 4096);
    measure("xvfs_close", close_it, 4096);
    if (is_well) printf("each call takes at most the stack that xvfs.h says\n");
    return !is_well;
}
