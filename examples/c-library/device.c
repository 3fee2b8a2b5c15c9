/*
 * What a host owes a device that holds writes back. The device here is a model: a write stays in its
 * cache until a flush, or until the cache is full, and then one of the held is brought to the disk,
 * in no order. Power fails at random, also amid recovery: then each held write was made or is lost.
 *
 * Four processes write records to files of their own. After each failure the host of xvfs_host.h
 * is opened anew, which recovers what the disk has. Then it has to be sound, with each record that was
 * answered.
 *
 * The host that opens with XVFS_HOLD never loses one, by four flushes a commit. Nor does the host that
 * opens without it, which flushes behind each write. Over a device that says that it flushed and didn't,
 * some are lost. This program shows all three.
 *
 * usage: device [FAILURES [SEED]]
 */
#include <stdio.h>
#include <stdlib.h>
#include <string.h>

#include "xvfs_host.h"

#define BLOCKS 300u
#define INODES 16u
#define PROCESSES 4u
#define RECORD_BYTES 700u
#define MOST_RECORDS 60u
#define CACHE 12u

static uint64_t state;

static uint32_t random_below(uint32_t bound) {
    state ^= state << 13;
    state ^= state >> 7;
    state ^= state << 17;
    return (uint32_t)(state >> 33) % bound;
}

/* The device. */

static uint8_t disk[BLOCKS * XVFS_BLOCK_SIZE];
static struct {
    uint32_t block;
    uint8_t bytes[XVFS_BLOCK_SIZE];
} held[CACHE];
static unsigned held_count, flushes, writes_made;
static uint32_t calls_left; /* until power fails */
static int has_failed;

/* When it is flushed. */
static enum way { WHERE_TOLD, BEHIND_EACH_WRITE, NEVER } way;

static uint8_t *at(uint8_t *image, uint32_t block) { return image + block * XVFS_BLOCK_SIZE; }

/* Brings a held write to the disk or loses it. Writes of one block keep their order. */
static void end_held(unsigned k, int is_made) {
    if (is_made) memcpy(at(disk, held[k].block), held[k].bytes, XVFS_BLOCK_SIZE);
    memmove(&held[k], &held[k + 1], (held_count - k - 1) * sizeof held[0]);
    held_count -= 1;
}

static int is_first_of_its_block(unsigned k) {
    for (unsigned j = 0; j < k; j++)
        if (held[j].block == held[k].block) return 0;
    return 1;
}

/* Power fails at one call in some: that one isn't made, and no later one. */
static int fails(void) {
    if (!has_failed && calls_left-- == 0) {
        while (held_count) end_held(0, random_below(2) == 0);
        has_failed = 1;
    }
    return has_failed;
}

static int read_block(void *context, uint32_t block, uint8_t *bytes) {
    (void)context;
    if (fails()) return 1;
    memcpy(bytes, at(disk, block), XVFS_BLOCK_SIZE);
    for (unsigned k = 0; k < held_count; k++)
        if (held[k].block == block) memcpy(bytes, held[k].bytes, XVFS_BLOCK_SIZE);
    return 0;
}

static int write_block(void *context, uint32_t block, const uint8_t *bytes) {
    (void)context;
    if (fails()) return 1;
    writes_made += 1;
    while (held_count == CACHE) {
        unsigned k = random_below(held_count);
        if (is_first_of_its_block(k)) end_held(k, 1);
    }
    held[held_count].block = block;
    memcpy(held[held_count].bytes, bytes, XVFS_BLOCK_SIZE);
    held_count += 1;
    return 0;
}

static int sync_disk(void *context) {
    (void)context;
    if (fails()) return 1;
    flushes += 1;
    while (way != NEVER && held_count) end_held(0, 1);
    return 0;
}

static const xvfs_device device = {NULL, read_block, write_block, sync_disk};

/* The host. */

struct process {
    unsigned begun, ended, kept; /* records: handed in, written by the library, and answered */
};
static struct process processes[PROCESSES];
static uint8_t image[BLOCKS * XVFS_BLOCK_SIZE];
static xvfs_host host = XVFS_CLOSED_HOST;

static void must(int is_well, const char *what) {
    if (!is_well) {
        printf("device: %s\n", what);
        exit(1);
    }
}

static void fill(uint8_t *record, uint32_t process, unsigned number) {
    for (unsigned k = 0; k < RECORD_BYTES; k++) record[k] = (uint8_t)(process * 64 + number + k % 7);
}

static xvfs_result open_host(uint32_t count) {
    return xvfs_host_open(&host, &device, image, sizeof image, count, way == WHERE_TOLD ? XVFS_HOLD : 0);
}

/* One step of a process, and the answers that come of it. Whether power was there. */
static int step(uint32_t p) {
    xvfs_stepped stepped;
    xvfs_answer answer;
    xvfs_result result = xvfs_host_step(&host, p, &stepped);
    if (result == XVFS_E_DEVICE) return 0;
    must(result == XVFS_OK, "no step");
    processes[p].ended += stepped.step == XVFS_STEP_ANSWERED;
    for (uint32_t other = 0; other < PROCESSES; other++)
        while (xvfs_host_poll(&host, other, &answer, NULL, 0) == XVFS_OK) {
            must(answer.reply == XVFS_REPLY_WROTE && answer.value == RECORD_BYTES, "nothing is written");
            processes[other].kept += 1;
        }
    return 1;
}

static void hand_in(uint32_t p) {
    struct process *process = &processes[p];
    uint8_t record[RECORD_BYTES];
    uint64_t number;
    xvfs_op op = {XVFS_OP_WRITE, p + 1, process->begun * RECORD_BYTES, 0};
    fill(record, p, process->begun++);
    must(xvfs_host_submit(&host, p, op, record, sizeof record, &number) == XVFS_OK, "no operation");
}

/* An operation of process 0, alone. */
static xvfs_answer call(xvfs_op op, uint8_t *bytes, size_t size) {
    xvfs_answer answer;
    must(xvfs_host_call(&host, 0, op, NULL, 0, &answer, bytes, size) == XVFS_OK, "no answer");
    return answer;
}

/* Whether each process's file has the records that were answered, whole, and no more than were handed
 * in. */
static int has_kept(void) {
    uint8_t record[RECORD_BYTES], found[RECORD_BYTES];
    for (uint32_t p = 0; p < PROCESSES; p++) {
        xvfs_op stat = {XVFS_OP_STAT, p + 1, 0, 0};
        uint32_t size = call(stat, found, sizeof found).size, count = size / RECORD_BYTES;
        if (size % RECORD_BYTES || count < processes[p].kept || count > processes[p].begun) return 0;
        for (unsigned k = 0; k < count; k++) {
            xvfs_op read = {XVFS_OP_READ, p + 1, k * RECORD_BYTES, RECORD_BYTES};
            fill(record, p, k);
            if (call(read, found, sizeof found).len != RECORD_BYTES ||
                memcmp(record, found, RECORD_BYTES))
                return 0;
        }
    }
    return 1;
}

/* Power is there, for so many calls of the device. */
static void start(uint32_t calls) {
    has_failed = 0;
    held_count = 0;
    calls_left = calls;
}

/* A new image with an empty file for each process. */
static void make(void) {
    enum way wanted = way;
    xvfs_op create = {XVFS_OP_CREATE, 2, 0, 0};
    way = WHERE_TOLD;
    start(UINT32_MAX);
    must(xvfs_host_mkfs(&device, image, sizeof image, INODES, 1) == XVFS_OK, "no image");
    must(open_host(1) == XVFS_OK, "not opened");
    for (uint32_t p = 0; p < PROCESSES; p++)
        must(call(create, NULL, 0).reply == XVFS_REPLY_MADE, "no file");
    xvfs_host_close(&host);
    memset(processes, 0, sizeof processes);
    way = wanted;
}

/* One life of the host, up to a failure of power. Whether nothing was lost and all is sound. */
static int live(void) {
    xvfs_result result;
    make();
    must(open_host(PROCESSES) == XVFS_OK, "not opened");
    start(random_below(400));
    for (;;) {
        uint32_t p = random_below(PROCESSES);
        struct process *it = &processes[p];
        if (it->begun < MOST_RECORDS && it->ended == it->begun) hand_in(p);
        if (it->begun == MOST_RECORDS) calls_left = 0;
        if (!step(p)) break;
    }
    /* Power may fail amid the recovery, too, and amid the next. */
    do {
        xvfs_host_close(&host);
        start(random_below(2) ? BLOCKS + random_below(12) : UINT32_MAX);
        result = open_host(1);
    } while (has_failed);
    if (result != XVFS_OK) return 0;
    int is_well = has_kept();
    xvfs_host_close(&host);
    return is_well;
}

/* How often the host flushes for each of so many commits of one process, and how often it writes. */
static void count_flushes(unsigned commits) {
    make();
    must(open_host(1) == XVFS_OK, "not opened");
    flushes = writes_made = 0;
    for (unsigned k = 0; k < commits; k++) {
        hand_in(0);
        while (processes[0].kept == k) must(step(0), "power failed");
    }
    xvfs_host_close(&host);
}

int main(int argc, char **argv) {
    unsigned failures = argc > 1 ? (unsigned)atoi(argv[1]) : 300, lost[3] = {0, 0, 0};
    for (way = WHERE_TOLD; way <= NEVER; way = (enum way)(way + 1)) {
        state = 88172645463325252u + (argc > 2 ? (uint64_t)atoi(argv[2]) : 0);
        for (unsigned k = 0; k < failures; k++) lost[way] += !live();
    }
    way = WHERE_TOLD;
    count_flushes(20);
    int is_well = flushes == 4 * 20;
    printf("flushed where told: %u of %u failures of power lost something, %u flushes for 20 commits\n",
           lost[WHERE_TOLD], failures, flushes);
    way = BEHIND_EACH_WRITE;
    count_flushes(20);
    is_well &= flushes == writes_made;
    printf("flushed behind each write: %u, %u flushes for 20 commits\n", lost[BEHIND_EACH_WRITE],
           flushes);
    printf("not flushed: %s\n", lost[NEVER] ? "some did" : "none did");
    return !is_well || lost[WHERE_TOLD] || lost[BEHIND_EACH_WRITE] || !lost[NEVER];
}
