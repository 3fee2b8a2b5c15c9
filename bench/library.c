/* The writes of `bench_parts writes N`, made through libxvfs.a: N writes of 1024 bytes by four processes
 * in turn, to a file of each, over an image of 200 blocks, with the word `hold` by XVFS_HOLD. What a device
 * does with a told write is its own: here it is counted. Prints how many steps these took. */
#include <stdio.h>
#include <stdlib.h>
#include <string.h>

#include "xvfs_host.h"

#define BLOCKS 200u
#define PROCESSES 4u

static uint8_t disk[BLOCKS * XVFS_BLOCK_SIZE], image[sizeof disk], bytes[XVFS_BLOCK_SIZE];
static unsigned long told;
static xvfs_host host = XVFS_CLOSED_HOST;

static int read_block(void *context, uint32_t block, uint8_t *into) {
    memcpy(into, (uint8_t *)context + block * XVFS_BLOCK_SIZE, XVFS_BLOCK_SIZE);
    return 0;
}

static int count_write(void *context, uint32_t block, const uint8_t *from) {
    (void)context, (void)block, (void)from;
    told += 1;
    return 0;
}

static int sync_nothing(void *context) {
    (void)context;
    return 0;
}

static void must(int is_well, const char *what) {
    if (is_well) return;
    fprintf(stderr, "library: %s\n", what);
    exit(1);
}

/* The steps of an operation. How many they are. */
static unsigned long perform(uint32_t p, xvfs_op op, size_t size) {
    unsigned long steps = 0;
    uint64_t number;
    xvfs_stepped stepped;
    xvfs_answer answer;
    must(xvfs_host_submit(&host, p, op, bytes, size, &number) == XVFS_OK, "no operation");
    do {
        must(xvfs_host_step(&host, p, &stepped) == XVFS_OK, "no step");
        steps += 1;
    } while (stepped.step == XVFS_STEP_MOVED);
    must(xvfs_host_poll(&host, p, &answer, NULL, 0) == XVFS_OK, "no answer");
    must(answer.reply <= XVFS_REPLY_DONE, "refused");
    return steps;
}

int main(int argc, char **argv) {
    const xvfs_device device = {disk, read_block, count_write, sync_nothing};
    unsigned long steps = 0;
    uint32_t writes = argc > 1 ? (uint32_t)atoi(argv[1]) : 20;
    uint32_t flags = argc > 2 && !strcmp(argv[2], "hold") ? XVFS_HOLD : 0;
    memset(bytes, 7, sizeof bytes);
    must(xvfs_mkfs(disk, sizeof disk, 32, 1) == XVFS_OK, "no image");
    must(xvfs_host_open(&host, &device, image, sizeof image, PROCESSES, flags) == XVFS_OK, "not opened");
    for (uint32_t p = 0; p < PROCESSES; p++) perform(p, (xvfs_op){XVFS_OP_CREATE, 2, 0, 0}, 0);
    for (uint32_t k = 0; k < writes; k++) {
        uint32_t p = k % PROCESSES;
        xvfs_op op = {XVFS_OP_WRITE, p + 1, k / PROCESSES % 10 * XVFS_BLOCK_SIZE, 0};
        steps += perform(p, op, sizeof bytes);
    }
    xvfs_host_close(&host);
    must(told >= writes, "a write is untold");
    printf("%lu\n", steps);
    return 0;
}
