/* Many operations of one session: the writes of bench/library.c, of 1024 bytes by four processes in turn,
 * through libxvfs.a over an image of 200 blocks. Give how many. At each power of ten from 1000 on, and at the
 * end, prints a row: how many writes there were, the most memory that the program had (KiB), and of the steps
 * since the last row how many nanoseconds one took, and the longest of them in microseconds. Give a program and
 * a word besides, and it prints a row of what that program makes of word and number, in a process of its own: the
 * number, the most memory, and of the number how many microseconds one took. */
#define _POSIX_C_SOURCE 200809L
#include <stdio.h>
#include <stdlib.h>
#include <string.h>
#include <sys/resource.h>
#include <sys/wait.h>
#include <time.h>
#include <unistd.h>

#include "xvfs_host.h"

#define BLOCKS 200u
#define PROCESSES 4u

static uint8_t disk[BLOCKS * XVFS_BLOCK_SIZE], image[sizeof disk], bytes[XVFS_BLOCK_SIZE];
static uint64_t steps, taken, longest;
static xvfs_host host = XVFS_CLOSED_HOST;

/* The device, which keeps nothing: what it costs to keep a write isn't asked. */
static int read_block(void *context, uint32_t block, uint8_t *into) {
    memcpy(into, (uint8_t *)context + block * XVFS_BLOCK_SIZE, XVFS_BLOCK_SIZE);
    return 0;
}

static int write_nothing(void *context, uint32_t block, const uint8_t *from) {
    (void)context, (void)block, (void)from;
    return 0;
}

static int sync_nothing(void *context) {
    (void)context;
    return 0;
}

static void must(int is_well, const char *what) {
    if (is_well) return;
    fprintf(stderr, "lasting: %s\n", what);
    exit(1);
}

static uint64_t now(void) {
    struct timespec at;
    clock_gettime(CLOCK_PROCESS_CPUTIME_ID, &at);
    return (uint64_t)at.tv_sec * 1000000000u + (uint64_t)at.tv_nsec;
}

/* The steps of an operation, each timed. */
static void perform(uint32_t p, xvfs_op op, size_t size) {
    uint64_t number;
    xvfs_stepped stepped;
    xvfs_answer answer;
    must(xvfs_host_submit(&host, p, op, bytes, size, &number) == XVFS_OK, "no operation");
    do {
        uint64_t before = now();
        must(xvfs_host_step(&host, p, &stepped) == XVFS_OK, "no step");
        uint64_t span = now() - before;
        steps += 1;
        taken += span;
        if (span > longest) longest = span;
    } while (stepped.step == XVFS_STEP_MOVED);
    must(xvfs_host_poll(&host, p, &answer, NULL, 0) == XVFS_OK, "no answer");
    must(answer.reply <= XVFS_REPLY_DONE, "refused");
}

static void row(unsigned long writes) {
    struct rusage used;
    getrusage(RUSAGE_SELF, &used);
    printf("| %10lu | %10ld | %12.1f | %12.1f |\n", writes, used.ru_maxrss, (double)taken / (double)steps,
           (double)longest / 1e3);
    fflush(stdout);
    steps = taken = longest = 0;
}

static void row_of(const char *program, const char *word, const char *writes) {
    struct rusage used;
    int status;
    pid_t child = fork();
    if (child == 0) {
        if (freopen("/dev/null", "w", stdout) != NULL) execl(program, program, word, writes, (char *)NULL);
        _exit(1);
    }
    must(child > 0 && waitpid(child, &status, 0) == child && status == 0, "the program failed");
    getrusage(RUSAGE_CHILDREN, &used);
    printf("| %10s | %10ld | %12.1f |\n", writes, used.ru_maxrss,
           ((double)used.ru_utime.tv_sec * 1e6 + (double)used.ru_utime.tv_usec) / strtod(writes, NULL));
}

int main(int argc, char **argv) {
    const xvfs_device device = {disk, read_block, write_nothing, sync_nothing};
    unsigned long writes = argc > 1 ? strtoul(argv[1], NULL, 10) : 1000, next = 1000;
    if (argc == 4) {
        row_of(argv[2], argv[3], argv[1]);
        return 0;
    }
    memset(bytes, 7, sizeof bytes);
    must(xvfs_mkfs(disk, sizeof disk, 32, 1) == XVFS_OK, "no image");
    must(xvfs_host_open(&host, &device, image, sizeof image, PROCESSES, 0) == XVFS_OK, "not opened");
    for (uint32_t p = 0; p < PROCESSES; p++) perform(p, (xvfs_op){XVFS_OP_CREATE, 2, 0, 0}, 0);
    printf("| %10s | %10s | %12s | %12s |\n", "writes", "KiB", "ns a step", "longest, us");
    printf("|------------|------------|--------------|--------------|\n");
    for (unsigned long k = 0; k < writes; k++) {
        uint32_t p = (uint32_t)(k % PROCESSES);
        uint32_t offset = (uint32_t)(k / PROCESSES % 10) * XVFS_BLOCK_SIZE;
        perform(p, (xvfs_op){XVFS_OP_WRITE, p + 1, offset, 0}, sizeof bytes);
        if (k + 1 == next || k + 1 == writes) row(k + 1);
        if (k + 1 == next) next *= 10;
    }
    xvfs_host_close(&host);
    return 0;
}
