/*
 * The host of xvfs_host.h beside a session that is stepped by hand, and over a device of which each call
 * fails in turn.
 *
 * What a step tells reaches the device as one write, and a sync where it is due, before the next step;
 * an answer is told once it is kept. Behind a failed write or sync no call reaches the device, each is
 * refused, and what a failure of power leaves has each answer that was told. So is it at an opening, of
 * which each call fails in turn; and a new image is there as a whole, or none. With XVFS_HOLD and
 * without it.
 *
 * usage: hosts [SEEDS]
 */
#include <stdio.h>
#include <stdlib.h>
#include <string.h>

#include "xvfs_host.h"

#define BLOCKS 120u
#define BYTES (BLOCKS * XVFS_BLOCK_SIZE)
#define PROCESSES 3u
#define RECORD 400u  /* bytes */
#define MOST 12u     /* records of a process */
#define CALLS 400u   /* writes and syncs that are remembered */

static uint64_t state;
static uint32_t flags;

static uint32_t below(uint32_t bound) {
    state ^= state << 13;
    state ^= state >> 7;
    state ^= state << 17;
    return (uint32_t)(state >> 33) % bound;
}

static void must(int is_well, const char *what, unsigned long number) {
    if (is_well) return;
    fprintf(stderr, "hosts: %s: %lx, flags %u\n", what, number, flags);
    exit(1);
}

static void expect(xvfs_result wanted, xvfs_result result) {
    must(result == wanted, xvfs_strerror(wanted), result);
}

/* The device: it holds writes back until a sync, and remembers each write and sync. */

struct call {
    int is_sync;
    uint32_t block;
    uint8_t bytes[XVFS_BLOCK_SIZE];
};
static uint8_t disk[BYTES], image[BYTES];
static struct call calls[CALLS];
static unsigned count, synced, fails_at; /* calls that were made, those synced, and the one that fails */
static unsigned reads, read_fails_at, behind_failure;
static unsigned kill_at; /* the steps behind which a host is killed; 0: none */
static int has_failed, is_deaf;

static uint8_t *at(uint8_t *of, uint32_t block) { return of + block * XVFS_BLOCK_SIZE; }

/* Brings the writes since the last sync to the disk: all, or any of them. */
static void bring(int is_sync) {
    for (; synced < count; synced++)
        if (!calls[synced].is_sync && (is_sync || below(2)))
            memcpy(at(disk, calls[synced].block), calls[synced].bytes, XVFS_BLOCK_SIZE);
}

static int fails(void) {
    behind_failure += has_failed != 0;
    must(count < CALLS, "too many calls", count);
    has_failed |= count + 1 == fails_at;
    return has_failed;
}

static int read_block(void *context, uint32_t block, uint8_t *bytes) {
    (void)context;
    if (++reads == read_fails_at) return 1;
    memcpy(bytes, at(disk, block), XVFS_BLOCK_SIZE);
    for (unsigned k = synced; k < count; k++)
        if (!calls[k].is_sync && calls[k].block == block) memcpy(bytes, calls[k].bytes, XVFS_BLOCK_SIZE);
    return 0;
}

static int write_block(void *context, uint32_t block, const uint8_t *bytes) {
    (void)context;
    must(block < BLOCKS, "there is no such block", block);
    if (is_deaf) return 0;
    if (fails()) return -1;
    calls[count].is_sync = 0;
    calls[count].block = block;
    memcpy(calls[count++].bytes, bytes, XVFS_BLOCK_SIZE);
    return 0;
}

static int sync_disk(void *context) {
    (void)context;
    if (fails()) return 1;
    calls[count++].is_sync = 1;
    bring(1);
    return 0;
}

static const xvfs_device device = {NULL, read_block, write_block, sync_disk};

/* Power comes back: of the writes behind the last sync some are there. The call `next` will fail. */
static void restart(unsigned next) {
    bring(0);
    count = synced = reads = read_fails_at = behind_failure = 0;
    has_failed = 0;
    fails_at = next;
}

/* The operations: each process writes records to the end of a file of its own. */

static xvfs_host host = XVFS_CLOSED_HOST;
static uint8_t record[RECORD], found[RECORD];
static unsigned begun[PROCESSES], ended[PROCESSES], kept[PROCESSES];

static void fill(uint32_t p, unsigned number) {
    for (unsigned k = 0; k < RECORD; k++) record[k] = (uint8_t)(p * 80 + number * 5 + k % 3 + 1);
}

static xvfs_op op_of(uint32_t p) {
    xvfs_op op = {XVFS_OP_WRITE, p + 1, begun[p] * RECORD, 0};
    fill(p, begun[p]);
    return op;
}

static void make(void) {
    xvfs_op create = {XVFS_OP_CREATE, 2, 0, 0};
    xvfs_answer answer;
    restart(0);
    expect(XVFS_OK, xvfs_host_mkfs(&device, image, BYTES, 16, 1));
    restart(0);
    expect(XVFS_OK, xvfs_host_open(&host, &device, image, BYTES, 1, flags));
    for (uint32_t p = 0; p < PROCESSES; p++)
        expect(XVFS_OK, xvfs_host_call(&host, 0, create, NULL, 0, &answer, NULL, 0));
    xvfs_host_close(&host);
    restart(0);
    for (uint32_t p = 0; p < PROCESSES; p++) begun[p] = ended[p] = kept[p] = 0;
}

static int is_same(const xvfs_stepped *a, const xvfs_stepped *b) {
    return a->step == b->step && a->why == b->why && a->wrote == b->wrote && a->block == b->block &&
           a->synced == b->synced && a->by == b->by && a->committed == b->committed;
}

/* The host's calls of the device since `before` are what this step told. */
static void must_be_told(unsigned before, const xvfs_stepped *told, const uint8_t *block) {
    unsigned wanted = before + told->wrote, syncs = flags ? told->synced : told->wrote;
    must(count == wanted + syncs, "another number of calls", count - before);
    if (told->wrote)
        must(!calls[before].is_sync && calls[before].block == told->block &&
                 !memcmp(calls[before].bytes, block, XVFS_BLOCK_SIZE),
             "another write", told->block);
    if (syncs) must(calls[wanted].is_sync && synced == count, "no sync", before);
}

/* Steps host and session side by side, of random processes, until all records are answered. */
static void see_order(uint64_t seed) {
    static uint8_t block[XVFS_BLOCK_SIZE];
    xvfs fs = XVFS_CLOSED_HANDLE;
    xvfs_stepped ours, theirs;
    xvfs_answer answer;
    uint64_t groups[PROCESSES][MOST], number;
    int is_kept;
    state = seed * 0x9e3779b97f4a7c15u + 1;
    make();
    expect(XVFS_OK, xvfs_open(&fs, disk, BYTES, PROCESSES, flags));
    expect(XVFS_OK, xvfs_host_open(&host, &device, image, BYTES, PROCESSES, flags));
    must(count == 1 && calls[0].is_sync && host.committed == 0, "another opening of no log", count);
    for (unsigned left = PROCESSES * MOST; left > 0;) {
        uint32_t p = below(PROCESSES);
        unsigned before = count;
        if (begun[p] < MOST && begun[p] == ended[p]) {
            xvfs_op op = op_of(p);
            must(xvfs_submit(&fs, p, &op, record, RECORD, &number) == XVFS_OK, "no operation", p);
            must(xvfs_host_submit(&host, p, op, record, RECORD, &number) == XVFS_OK, "no operation", p);
            begun[p] += 1;
        }
        must(xvfs_step(&fs, p, &theirs, block, sizeof block) == XVFS_OK, "no step", p);
        must(xvfs_host_step(&host, p, &ours) == XVFS_OK && is_same(&ours, &theirs), "another step", p);
        must_be_told(before, &theirs, block);
        if (count == synced) count = synced = 0;
        if (ours.step != XVFS_STEP_ANSWERED) continue;
        must(xvfs_poll(&fs, p, &answer, record, 0) == XVFS_OK, "no answer", p);
        groups[p][ended[p]++] = answer.group;
        left -= 1;
        is_kept = groups[p][kept[p]] <= theirs.committed;
        must(xvfs_host_poll(&host, p, &answer, NULL, 0) == (is_kept ? XVFS_OK : XVFS_E_NOT_KEPT),
             is_kept ? "a kept answer isn't told" : "an answer is told before it is kept", p);
        if (!is_kept) continue;
        must(answer.group == groups[p][kept[p]++] && answer.seq == kept[p], "another answer", p);
    }
    xvfs_close(&fs);
    xvfs_host_close(&host);
}

/* A host up to a failure of the device, or its own, or to the end: whether it failed. */
static int live(void) {
    xvfs_stepped stepped;
    xvfs_answer answer;
    uint64_t number, committed = 0;
    xvfs_result opened = xvfs_host_open(&host, &device, image, BYTES, PROCESSES, flags);
    if (opened == XVFS_E_DEVICE) return 1;
    expect(XVFS_OK, opened);
    for (unsigned left = PROCESSES * MOST, steps = 1; left > 0; steps++) {
        uint32_t p = below(PROCESSES);
        if (steps == kill_at) return 1;
        if (begun[p] < MOST && begun[p] == ended[p]) {
            xvfs_op op = op_of(p);
            must(xvfs_host_submit(&host, p, op, record, RECORD, &number) == XVFS_OK, "no operation", p);
            begun[p] += 1;
        }
        xvfs_result result = xvfs_host_step(&host, p, &stepped);
        must(result == XVFS_OK || stepped.committed == committed, "a commit is told that wasn't made", p);
        committed = stepped.committed;
        if (result == XVFS_E_DEVICE) return 1;
        must(result == XVFS_OK, "no step", result);
        ended[p] += stepped.step == XVFS_STEP_ANSWERED;
        for (uint32_t other = 0; other < PROCESSES; other++)
            while (xvfs_host_poll(&host, other, &answer, NULL, 0) == XVFS_OK) kept[other]++, left--;
    }
    return 0;
}

/* Behind a failure each call is refused, and none reaches the device. */
static void must_be_halted(void) {
    xvfs_op op = {XVFS_OP_STAT, 1, 0, 0};
    xvfs_stepped stepped;
    xvfs_answer answer;
    uint64_t number;
    unsigned before = reads;
    expect(XVFS_E_DEVICE, xvfs_host_step(&host, 0, &stepped));
    expect(XVFS_E_DEVICE, xvfs_host_submit(&host, 0, op, NULL, 0, &number));
    expect(XVFS_E_DEVICE, xvfs_host_poll(&host, 0, &answer, NULL, 0));
    expect(XVFS_E_DEVICE, xvfs_host_finish(&host, 0, &answer, NULL, 0));
    expect(XVFS_E_DEVICE, xvfs_host_call(&host, 0, op, NULL, 0, &answer, NULL, 0));
    expect(XVFS_E_DEVICE, xvfs_host_open(&host, &device, image, BYTES, 1, flags));
    must(!host.fs.session && !behind_failure && reads == before, "the device was called", behind_failure);
    xvfs_host_close(&host);
}

/* The open host's files have the records that were answered, whole, and none that wasn't handed in. */
static void must_have_kept(void) {
    xvfs_answer answer;
    for (uint32_t p = 0; p < PROCESSES; p++) {
        xvfs_op stat = {XVFS_OP_STAT, p + 1, 0, 0}, read = {XVFS_OP_READ, p + 1, 0, RECORD};
        expect(XVFS_OK, xvfs_host_call(&host, 0, stat, NULL, 0, &answer, NULL, 0));
        unsigned size = answer.size / RECORD;
        must(answer.size % RECORD == 0 && size >= kept[p] && size <= begun[p], "an answer is lost", p);
        for (unsigned k = 0; k < size; k++, read.offset += RECORD) {
            expect(XVFS_OK, xvfs_host_call(&host, 0, read, NULL, 0, &answer, found, RECORD));
            fill(p, k);
            must(answer.len == RECORD && !memcmp(found, record, RECORD), "another record", k);
        }
    }
}

/* Opens the host over what power left, of which each write and sync fails in turn. How many did. */
static unsigned recover(void) {
    static uint8_t wanted[BYTES];
    uint32_t recovered;
    unsigned failures = 0;
    memcpy(wanted, disk, BYTES);
    must(xvfs_recover(wanted, BYTES, &recovered) == XVFS_OK, "not sound", 0);
    for (unsigned k = 1;; k++, failures++) {
        restart(k);
        if (xvfs_host_open(&host, &device, image, BYTES, 1, flags) == XVFS_OK) break;
        must_be_halted();
    }
    must(synced == count && !memcmp(disk, wanted, BYTES), "another image is recovered", failures);
    return failures;
}

/* Each write and sync of a run fails in turn. */
static void see_failures(uint64_t seed) {
    unsigned failures = 0, again = 0, is_whole = 0;
    for (unsigned k = 1; !is_whole; k++) {
        state = seed * 0x9e3779b97f4a7c15u + 1;
        make();
        fails_at = k;
        is_whole = !live();
        if (is_whole) xvfs_host_close(&host);
        else must_be_halted();
        failures += !is_whole;
        restart(0);
        again += recover();
        must_have_kept();
        xvfs_host_close(&host);
    }
    must(failures > 60 && again > 60, "few failures", failures);
    printf("%s: each of %u writes and syncs failed in turn, and each of %u of recoveries behind them\n",
           flags ? "with XVFS_HOLD" : "without", failures, again);
}

/* A host is killed behind each step in turn, and its device isn't: another is opened over what that holds
 * back, and each write and sync of the opening fails in turn, and power with it. */
static void see_kills(uint64_t seed) {
    static uint8_t kept_disk[BYTES];
    static struct call kept_calls[CALLS];
    unsigned failures = 0, held = 0, kept_count, kept_synced;
    for (kill_at = 2;; kill_at++) {
        state = seed * 0x9e3779b97f4a7c15u + 1;
        make();
        if (!live()) break;
        xvfs_host_close(&host);
        held += synced < count;
        memcpy(kept_disk, disk, BYTES);
        memcpy(kept_calls, calls, sizeof calls);
        kept_count = count;
        kept_synced = synced;
        for (unsigned k = 1;; k++, failures++) {
            memcpy(disk, kept_disk, BYTES);
            memcpy(calls, kept_calls, sizeof calls);
            count = kept_count;
            synced = kept_synced;
            fails_at = count + k;
            if (xvfs_host_open(&host, &device, image, BYTES, 1, flags) == XVFS_OK) break;
            must_be_halted();
            restart(0);
            expect(XVFS_OK, xvfs_host_open(&host, &device, image, BYTES, 1, flags));
            must_have_kept();
            xvfs_host_close(&host);
        }
        must_have_kept();
        xvfs_host_close(&host);
    }
    kill_at = 0;
    xvfs_host_close(&host);
    must(failures > 60 && (held > 60 || !flags), "few kills", failures);
}

/* Each write and sync fails in turn while an image is made, over another one. A read fails, too. */
static void see_new_images(void) {
    static uint8_t old[BYTES];
    xvfs_report report;
    unsigned outcomes[3] = {0, 0, 0};
    xvfs_result made;
    make();
    live();
    xvfs_host_close(&host);
    memcpy(old, disk, BYTES);
    for (unsigned k = 1;; k++) {
        restart(k);
        memcpy(disk, old, BYTES);
        made = xvfs_host_mkfs(&device, image, BYTES, 16, 1);
        must(!behind_failure, "the device was called", k);
        restart(0);
        if (made == XVFS_OK) break;
        must(made == XVFS_E_DEVICE, "another refusal", made);
        xvfs_result result = xvfs_check(disk, BYTES, &report);
        if (result == XVFS_E_BAD_MAGIC) outcomes[0] += 1;
        else if (result == XVFS_OK && !memcmp(disk, old, BYTES)) outcomes[1] += 1;
        else if (result == XVFS_OK && !memcmp(disk, image, BYTES)) outcomes[2] += 1;
        else must(0, "half an image", k);
    }
    must(!memcmp(disk, image, BYTES) && outcomes[0] > 100, "not made", outcomes[0]);
    read_fails_at = BLOCKS;
    expect(XVFS_E_DEVICE, xvfs_host_open(&host, &device, image, BYTES, 1, flags));
    expect(XVFS_OK, xvfs_host_open(&host, &device, image, BYTES, 1, flags));
    must(count == 2 && synced == 2, "another opening of no log", count);
    xvfs_host_close(&host);
}

/* A device that takes writes and makes none is found out, where a log is to be emptied. */
static void see_deaf(void) {
    xvfs_report report = {.logged = 0};
    for (unsigned k = 1; !report.logged; k++) {
        make();
        fails_at = k;
        must(live(), "no stop leaves a log", k);
        must_be_halted();
        restart(0);
        must(xvfs_check(disk, BYTES, &report) == XVFS_OK, "not sound", k);
    }
    is_deaf = 1;
    expect(XVFS_E_DEVICE, xvfs_host_open(&host, &device, image, BYTES, 1, flags));
    must(!host.fs.session, "left open", 0);
    is_deaf = 0;
    expect(XVFS_OK, xvfs_host_open(&host, &device, image, BYTES, 1, flags));
    xvfs_host_close(&host);
}

/* Who waits for an inode is told which process holds it. */
static void see_holder(void) {
    xvfs_op write = {XVFS_OP_WRITE, 1, 0, 0};
    xvfs_stepped stepped;
    uint64_t number;
    make();
    expect(XVFS_OK, xvfs_host_open(&host, &device, image, BYTES, 3, flags));
    for (uint32_t p = 1; p <= 2; p++)
        expect(XVFS_OK, xvfs_host_submit(&host, p, write, record, 1, &number));
    /* Its beginning, the reference, the lock. */
    for (int k = 0; k < 3; k++) expect(XVFS_OK, xvfs_host_step(&host, 2, &stepped));
    must(stepped.step == XVFS_STEP_MOVED && stepped.by == XVFS_NOBODY, "a holder without a wait", stepped.by);
    do expect(XVFS_OK, xvfs_host_step(&host, 1, &stepped)); while (stepped.step == XVFS_STEP_MOVED);
    must(stepped.why == XVFS_WHY_INODE_HELD && stepped.by == 2, "another holder", stepped.by);
    do expect(XVFS_OK, xvfs_host_step(&host, 2, &stepped)); while (stepped.step == XVFS_STEP_MOVED);
    expect(XVFS_OK, xvfs_host_step(&host, 1, &stepped));
    must(stepped.step == XVFS_STEP_MOVED && stepped.by == XVFS_NOBODY, "it waits still", stepped.by);
    xvfs_host_close(&host);
}

/* The results that a host's calls have and the library's haven't. */
static void see_results(void) {
    xvfs_op write = {XVFS_OP_WRITE, 1, 0, 0}, stat = {XVFS_OP_STAT, 1, 0, 0};
    xvfs_stepped stepped;
    xvfs_answer answer;
    uint64_t number;
    make();
    expect(XVFS_E_CLOSED, xvfs_host_submit(&host, 0, write, record, 1, &number));
    expect(XVFS_E_CLOSED, xvfs_host_step(&host, 0, &stepped));
    expect(XVFS_E_CLOSED, xvfs_host_poll(&host, 0, &answer, NULL, 0));
    expect(XVFS_E_FILE_LENGTH, xvfs_host_open(&host, &device, image, BYTES - 1, 2, flags));
    expect(XVFS_E_OPEN_PROCESSES, xvfs_host_open(&host, &device, image, BYTES, 33, flags));
    expect(XVFS_OK, xvfs_host_open(&host, &device, image, BYTES, 2, flags));
    expect(XVFS_E_OPEN, xvfs_host_open(&host, &device, image, BYTES, 2, flags));
    expect(XVFS_E_NO_PROCESS, xvfs_host_poll(&host, XVFS_PROCESSES, &answer, NULL, 0));
    expect(XVFS_E_NO_ANSWER, xvfs_host_finish(&host, 0, &answer, NULL, 0));
    /* A group stays open as long as an operation of it is under way, and that comes to hold its file. */
    expect(XVFS_OK, xvfs_host_submit(&host, 0, write, record, 1, &number));
    expect(XVFS_OK, xvfs_host_step(&host, 0, &stepped));
    expect(XVFS_E_NOT_KEPT, xvfs_host_call(&host, 1, write, record, 1, &answer, NULL, 0));
    for (int k = 0; k < 2; k++) expect(XVFS_OK, xvfs_host_step(&host, 0, &stepped));
    expect(XVFS_E_SLEEPS, xvfs_host_call(&host, 1, write, record, 1, &answer, NULL, 0));
    expect(XVFS_E_NOT_KEPT, xvfs_host_finish(&host, 0, &answer, NULL, 0));
    expect(XVFS_OK, xvfs_host_finish(&host, 1, &answer, NULL, 0));
    must(answer.seq == 1, "another answer", 1);
    expect(XVFS_OK, xvfs_host_poll(&host, 1, &answer, NULL, 0));
    must(answer.seq == 2, "another answer", 2);
    expect(XVFS_OK, xvfs_host_poll(&host, 0, &answer, NULL, 0));
    expect(XVFS_OK, xvfs_host_submit(&host, 0, stat, NULL, 0, &number));
    xvfs_host_shut(&host);
    expect(XVFS_E_SHUT, xvfs_host_finish(&host, 0, &answer, NULL, 0));
    xvfs_host_close(&host);
}

int main(int argc, char **argv) {
    unsigned seeds = argc > 1 ? (unsigned)atoi(argv[1]) : 1;
    for (unsigned way = 0; way < 2; way++) {
        flags = way ? XVFS_HOLD : 0;
        state = 1;
        see_new_images();
        see_deaf();
        see_results();
        see_holder();
        for (unsigned seed = 1; seed <= 20 * seeds; seed++) see_order(seed);
        for (unsigned seed = 1; seed <= seeds; seed++) see_failures(seed);
        for (unsigned seed = 1; seed <= seeds; seed++) see_kills(seed);
    }
    return 0;
}
