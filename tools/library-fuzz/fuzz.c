/*
 * Random operations of up to four processes over the library, each run with the script and the schedule
 * of its turns, and with what `xvfs replay` has to print for them. The device has only the writes that
 * were told, by the host of xvfs_host.h, and some runs stop before one; a device that holds writes back
 * is run beside it. Of the
 * library's calls for memory some are refused, and the call that says so is made again.
 *
 * fuzz FOLDER SEED RUNS   writes for each run K the files K.script, K.schedule, K.words (size, inode
 *                         numbers, form, the write to stop before or 0), K.printed and K.img
 * fuzz held SEED RUNS     runs with XVFS_HOLD over a device that loses any writes of those behind its
 *                         last flush: what is left at random moments, and amid its recovery, recovers
 *                         to one sound image
 * fuzz refuse SEED        one run, again and again, each with another call for memory refused
 * fuzz numbers            each refusal that can be had has the number that xvfs.h says, and a stat
 *                         tells the links that a file was given
 *
 * It is linked with --wrap=malloc and --wrap=realloc, so that the library's calls come here.
 */
#include <stdarg.h>
#include <stdio.h>
#include <stdlib.h>
#include <string.h>

#include "xvfs_host.h"

#define MOST_BLOCKS 300u
#define PROCESSES 4u
#define MOST_OPS 40u
#define MOST_TURNS 3000u

static uint8_t device[MOST_BLOCKS * XVFS_BLOCK_SIZE], block[XVFS_BLOCK_SIZE], bytes[8192];
static uint8_t room[sizeof device]; /* for an opening */
static size_t device_size;
static xvfs_host host = XVFS_CLOSED_HOST;

/* Random numbers, the same for the same seed. */

static uint64_t state;

static uint32_t below(uint32_t bound) {
    state ^= state << 13;
    state ^= state >> 7;
    state ^= state << 17;
    return (uint32_t)(state >> 33) % bound;
}

/* Memory: which of the library's calls for it is refused. */

static unsigned long asked, refuse_at, refusals;
static unsigned refuse_one_in; /* 0: none */
static uint64_t refusing = 1;

void *__real_malloc(size_t size);
void *__real_realloc(void *old, size_t size);
void *__wrap_malloc(size_t size);
void *__wrap_realloc(void *old, size_t size);

static int is_refused(void) {
    asked += 1;
    refusing = refusing * 6364136223846793005u + 1442695040888963407u;
    if (asked != refuse_at && !(refuse_one_in && (refusing >> 33) % refuse_one_in == 0)) return 0;
    refusals += 1;
    return 1;
}

void *__wrap_malloc(size_t size) { return is_refused() ? NULL : __real_malloc(size); }
void *__wrap_realloc(void *old, size_t size) {
    return is_refused() ? NULL : __real_realloc(old, size);
}

static void fail(const char *what, uint32_t number) {
    fprintf(stderr, "fuzz: %s: %x\n", what, number);
    exit(1);
}

/* Makes a call again while it is refused memory. */
#define REPEAT(number, memory, call) \
    do number = (call); while (number == (memory) && number)

static void must_check(xvfs_report *report) {
    uint32_t number;
    REPEAT(number, XVFS_E_CHECK_MEMORY, xvfs_check(device, device_size, report));
    if (number) fail("the device isn't sound", number);
}

/* A run: its operations, and how far each process is. */

struct process {
    unsigned count, given, answered;
    struct { xvfs_op op; uint32_t size; } ops[MOST_OPS];
};

static struct process processes[PROCESSES];
static uint32_t process_count, size, ninodes, form, stop, flags;
static uint8_t synced[sizeof device]; /* by XVFS_HOLD: the device at its last flush */
static struct {
    uint32_t block;
    uint8_t bytes[XVFS_BLOCK_SIZE];
} held[64];
static unsigned held_count;
static unsigned long syncs, losses;
static unsigned long writes, told, stops, operations;
static uint64_t committed;
static FILE *script, *schedule, *printed;

static void say(const char *format, ...) {
    va_list given;
    if (!printed) return;
    va_start(given, format);
    vfprintf(printed, format, given);
    va_end(given);
}

static void say_bytes(FILE *file, const uint8_t *from, size_t count) {
    if (!file) return;
    for (size_t k = 0; k < count; k++) fprintf(file, "%02x", from[k]);
    if (!count) fputc('-', file);
}

/* The bytes of an operation's write, which are the same each time. */
static void fill(uint32_t p, unsigned number, uint32_t count) {
    for (uint32_t k = 0; k < count; k++) bytes[k] = (uint8_t)(p * 59 + number * 17 + k % 251 + 1);
}

static void make_op(uint32_t p) {
    struct process *process = &processes[p];
    unsigned number = process->count++;
    xvfs_op *op = &process->ops[number].op;
    uint32_t kind = below(12), longest = below(8) ? 3072 : 4096;
    *op = (xvfs_op){kind < 8 ? (xvfs_op_kind)kind : kind < 10 ? XVFS_OP_WRITE : XVFS_OP_CREATE,
                    1 + below(7), 0, 0};
    process->ops[number].size = 0;
    if (number == 0 || op->kind == XVFS_OP_CREATE) {
        *op = (xvfs_op){XVFS_OP_CREATE, below(12) ? 1 + below(3) : 4 + below(9), 0, 0};
        if (script) fprintf(script, "%u create %u\n", p, op->inum);
    } else if (op->kind == XVFS_OP_WRITE) {
        uint32_t count = below(longest + 1);
        op->offset = below(3) ? 0 : below(6) ? below(15000) : 270000 + below(9000);
        process->ops[number].size = count;
        fill(p, number, count);
        if (script) fprintf(script, "%u write %u %u ", p, op->inum, op->offset);
        say_bytes(script, bytes, count);
        if (script) fputc('\n', script);
    } else if (op->kind == XVFS_OP_READ) {
        op->offset = below(3) ? below(4000) : below(300000);
        op->len = below(longest + 1);
        if (script) fprintf(script, "%u read %u %u %u\n", p, op->inum, op->offset, op->len);
    } else if (op->kind == XVFS_OP_LINKS) {
        op->len = below(4) ? below(65536) : below(2) * 65535;
        if (script) fprintf(script, "%u links %u %u\n", p, op->inum, op->len);
    } else if (op->kind == XVFS_OP_RESIZE) {
        op->len = below(4) ? below(4000) : below(300000);
        if (script) fprintf(script, "%u resize %u %u\n", p, op->inum, op->len);
    } else if (script) {
        const char *name = op->kind == XVFS_OP_TRUNC    ? "trunc"
                           : op->kind == XVFS_OP_REMOVE ? "remove"
                                                        : "stat";
        fprintf(script, "%u %s %u\n", p, name, op->inum);
    }
}

/* Hands operations of a process in, as long as there is room. */
static void hand_in(uint32_t p) {
    struct process *process = &processes[p];
    while (process->given < process->count) {
        unsigned number = process->given;
        uint32_t count = process->ops[number].size, refused;
        uint64_t seq = 0;
        fill(p, number, count);
        REPEAT(refused, XVFS_E_SUBMIT_MEMORY,
               xvfs_host_submit(&host, p, process->ops[number].op, bytes, count, &seq));
        if (refused == XVFS_E_FULL) return;
        if (refused || seq != number + 1) fail("an operation is refused", refused);
        process->given += 1;
    }
}

static void say_answer(uint32_t p, const xvfs_answer *a) {
    static const char *refused[] = {"1 NoFile", "2 BadOffset", "3 TooBig", "4 TooLong", "5 BadType"};
    say("%u answered %llu %llu ", p, (unsigned long long)a->seq, (unsigned long long)a->group);
    switch (a->reply) {
    case XVFS_REPLY_MADE: say("made %u\n", a->value); break;
    case XVFS_REPLY_WROTE: say("wrote %u\n", a->value); break;
    case XVFS_REPLY_BYTES:
        say("bytes ");
        say_bytes(printed, bytes, a->len);
        say("\n");
        break;
    case XVFS_REPLY_DONE: say("done\n"); break;
    case XVFS_REPLY_STAT: say("stat %u %u\n", a->value, a->size); break;
    case XVFS_REPLY_NO_INODE: say("noinode\n"); break;
    default: say("refused %s\n", refused[a->reply - XVFS_REPLY_NO_FILE]);
    }
}

static uint8_t *at(uint8_t *image, uint32_t b) { return image + b * XVFS_BLOCK_SIZE; }

/* What the device does with a told write or flush, where it holds writes back. */
static void hold_write(uint32_t b, const uint8_t *from) {
    if (held_count == 64) fail("more than 64 writes without a flush", b);
    held[held_count].block = b;
    memcpy(held[held_count++].bytes, from, XVFS_BLOCK_SIZE);
}

static void flush_held(void) {
    for (unsigned k = 0; k < held_count; k++)
        memcpy(at(synced, held[k].block), held[k].bytes, XVFS_BLOCK_SIZE);
    held_count = 0;
    syncs += 1;
}

/* What a stop leaves: of the held writes any, in their order. */
static void leave(uint8_t *left) {
    memcpy(left, synced, device_size);
    for (unsigned k = 0; k < held_count; k++)
        if (below(2)) memcpy(at(left, held[k].block), held[k].bytes, XVFS_BLOCK_SIZE);
}

/* Recovers an image, which has to be sound. */
static void must_recover(uint8_t *image) {
    uint32_t recovered, number;
    do number = xvfs_recover(image, device_size, &recovered);
    while (number == XVFS_E_RECOVER_MEMORY || number == XVFS_E_CHECK_MEMORY);
    if (number) fail("what a stop leaves isn't sound", number);
}

/* A stop: what it leaves is sound, and recovered as told to the image that xvfs_recover makes, also
 * where that is stopped in turn. */
static void lose(void) {
    static uint8_t found[sizeof device], whole[sizeof device], kept[sizeof device];
    static uint8_t kept_bytes[sizeof held], again[sizeof device];
    unsigned kept_count = held_count;
    uint32_t number;
    xvfs_told done;
    memcpy(kept, synced, device_size);
    memcpy(kept_bytes, held, sizeof held);
    leave(found);
    memcpy(whole, found, device_size);
    must_recover(whole);
    for (unsigned tries = 3; tries > 0; tries--) {
        uint32_t stops_at = below(40);
        memcpy(synced, found, device_size);
        held_count = 0;
        for (uint32_t place = 0; place < stops_at; place++) {
            REPEAT(number, XVFS_E_CHECK_MEMORY,
                   xvfs_recover_step(found, device_size, place, &done, block, sizeof block));
            if (number) fail("a step of recovery is refused", number);
            if (done.wrote) hold_write(done.block, block);
            else if (done.synced) flush_held();
            else if (held_count || memcmp(synced, whole, device_size)) fail("not recovered", place);
        }
        leave(found);
        memcpy(again, found, device_size);
        must_recover(again);
        if (memcmp(again, whole, device_size)) fail("another image amid recovery", stops_at);
    }
    memcpy(synced, kept, device_size);
    memcpy(held, kept_bytes, sizeof held);
    held_count = kept_count;
    losses += 1;
}

/* The device of the host. */

static unsigned step_writes, step_syncs; /* of the step under way */

static int read_block(void *context, uint32_t b, uint8_t *into) {
    memcpy(into, at((uint8_t *)context, b), XVFS_BLOCK_SIZE);
    return 0;
}

static int write_block(void *context, uint32_t b, const uint8_t *from) {
    if (step_writes || step_syncs) fail("a step wrote behind something else", b);
    if (writes + 1 == stop) {
        say("stopped before write %u\n", stop);
        return -1;
    }
    writes += 1;
    step_writes += 1;
    memcpy(at((uint8_t *)context, b), from, XVFS_BLOCK_SIZE);
    if (flags) hold_write(b, from);
    return 0;
}

static int sync_device(void *context) {
    (void)context;
    step_syncs += 1;
    if (flags) flush_held();
    return 0;
}

static const xvfs_device device_calls = {device, read_block, write_block, sync_device};

/* One step of a process: 1 where it moved, 0 where it didn't, -1 where its write is the one to stop
 * before. With `is_word` a line is printed also where it moved. */
static int step(uint32_t p, int is_word) {
    xvfs_stepped stepped;
    uint32_t refused;
    hand_in(p);
    do {
        step_writes = step_syncs = 0;
        refused = xvfs_host_step(&host, p, &stepped);
        if (refused == XVFS_E_DEVICE) return -1;
        if (refused) fail("a step is refused", refused);
    } while (stepped.step == XVFS_STEP_MEMORY);
    if (step_writes != stepped.wrote) fail("the device has another write", stepped.block);
    if (step_syncs != (flags ? stepped.synced : stepped.wrote)) fail("the device has another sync", p);
    if (stepped.synced && !flags) fail("a sync is told", p);
    if (flags && below(stepped.wrote ? 8 : 200) == 0) lose();
    committed = stepped.committed;
    if (stepped.step == XVFS_STEP_MOVED) {
        if (is_word) say("%u moved\n", p);
        return 1;
    }
    if (stepped.step == XVFS_STEP_ANSWERED) {
        xvfs_answer answer;
        refused = xvfs_poll(&host.fs, p, &answer, bytes, sizeof bytes); /* kept or not */
        if (refused) fail("no answer", refused);
        say_answer(p, &answer);
        processes[p].answered += 1;
        operations += 1;
    } else if (stepped.step == XVFS_STEP_SLEEPING) {
        static const char *why[] = {"Committing", "LogFull", "InodeHeld", "BufferHeld", "NoBuffer",
                                    "AnswersFull"};
        say("%u sleeping %u %s\n", p, stepped.why, why[stepped.why - 1]);
    } else if (stepped.step == XVFS_STEP_IDLE) {
        say("%u idle\n", p);
    } else if (stepped.step == XVFS_STEP_SHUT_DOWN) {
        say("%u shutdown\n", p);
    } else {
        fail("a step is", stepped.step);
    }
    return 0;
}

/* A word of the schedule: a step of a process, or its steps until one doesn't move. Whether to go on. */
static int turn(void) {
    uint32_t p = below(process_count), is_whole = below(5) == 0;
    int went;
    if (schedule) fprintf(schedule, is_whole ? "%u!\n" : "%u\n", p);
    do went = step(p, !is_whole); while (went == 1 && is_whole);
    return went >= 0;
}

static int is_done(void) {
    for (uint32_t p = 0; p < process_count; p++)
        if (processes[p].answered < processes[p].count) return 0;
    return 1;
}

/* A run of a seed, from a new image to the device that it leaves. */
static void run(uint64_t seed) {
    xvfs_report report;
    uint32_t refused;
    state = seed * 0x9e3779b97f4a7c15u + 88172645463325252u;
    below(2);
    size = 45 + below(MOST_BLOCKS - 45 + 1);
    ninodes = 2 + below(20);
    form = 1 + below(2);
    process_count = 1 + below(PROCESSES);
    stop = below(2) ? 1 + below(150) : 0;
    writes = committed = 0;
    memset(processes, 0, sizeof processes);
    device_size = size * XVFS_BLOCK_SIZE;
    memset(device, 0, device_size);
    REPEAT(refused, XVFS_E_MKFS_MEMORY, xvfs_mkfs(device, device_size, ninodes, form));
    if (refused) fail("mkfs", refused);
    for (uint32_t p = 0; p < process_count; p++)
        for (unsigned k = 1 + below(MOST_OPS - 1); k > 0; k--) make_op(p);
    do refused = xvfs_host_open(&host, &device_calls, room, device_size, process_count, flags);
    while (refused == XVFS_E_OPEN_MEMORY || refused == XVFS_E_CHECK_MEMORY);
    if (refused) fail("open", refused);
    memcpy(synced, device, device_size);
    held_count = 0;
    unsigned most = MOST_TURNS, shut_at = below(4) ? MOST_TURNS : below(200), turns = 0;
    int goes_on = 1;
    for (; goes_on && turns < most && !is_done(); turns++) {
        if (turns == shut_at) {
            xvfs_host_shut(&host);
            if (schedule) fprintf(schedule, "S\n");
            say("shut\n");
            most = turns + 100;
        }
        goes_on = turn();
        if (turns % 16 == 0) must_check(&report);
    }
    say("writes %lu\ncommitted %llu\n", writes, (unsigned long long)committed);
    told += writes;
    stops += !goes_on;
    xvfs_host_close(&host);
    must_check(&report);
}

static FILE *file_of(const char *folder, unsigned k, const char *part) {
    char path[4096];
    snprintf(path, sizeof path, "%s/%u.%s", folder, k, part);
    FILE *file = fopen(path, "w");
    if (!file) fail("a file can't be written", k);
    return file;
}

static void write_run(const char *folder, unsigned k, uint64_t seed) {
    script = file_of(folder, k, "script");
    schedule = file_of(folder, k, "schedule");
    printed = file_of(folder, k, "printed");
    run(seed);
    FILE *words = file_of(folder, k, "words"), *image = file_of(folder, k, "img");
    fprintf(words, "%u %u %u %u\n", size, ninodes, form, stop);
    fwrite(device, 1, device_size, image);
    fclose(script), fclose(schedule), fclose(printed), fclose(words), fclose(image);
}

/* Refuses each call for memory of one run in turn: the device has to be the same each time. */
static void refuse_each(uint64_t seed) {
    static uint8_t undisturbed[sizeof device];
    asked = 0;
    run(seed);
    unsigned long calls = asked, before = refusals;
    memcpy(undisturbed, device, device_size);
    for (unsigned long k = 1; k <= calls; k++) {
        asked = 0;
        refuse_at = k;
        run(seed);
        if (memcmp(device, undisturbed, device_size)) fail("another device by a refusal", (uint32_t)k);
    }
    refuse_at = 0;
    printf("each of %lu calls for memory refused in turn: %lu refusals, the same device\n", calls,
           refusals - before);
}

/* Numbers: an image of 200 blocks with 32 inode numbers, in which one field is put wrong. */

#define INODE_1 (33 * XVFS_BLOCK_SIZE + 64)
#define BITMAP (36 * XVFS_BLOCK_SIZE)

static void expect(const char *name, uint32_t wanted, uint32_t number) {
    if (number == wanted) return;
    fprintf(stderr, "fuzz: %s is %x in xvfs.h, and the library answers %x\n", name, wanted, number);
    exit(1);
}
#define EXPECT(name, call) expect(#name, name, call)

static void put(size_t at, unsigned value) {
    device[at] = (uint8_t)value;
    device[at + 1] = (uint8_t)(value >> 8);
    device[at + 2] = (uint8_t)(value >> 16);
    device[at + 3] = (uint8_t)(value >> 24);
}

static void make(void) {
    device_size = 200 * XVFS_BLOCK_SIZE;
    memset(device, 0, device_size);
    EXPECT(XVFS_OK, xvfs_mkfs(device, device_size, 32, 1));
}

static void expect_fault(const char *name, uint32_t wanted, uint32_t at) {
    xvfs_report report;
    xvfs fs = XVFS_CLOSED_HANDLE;
    uint32_t recovered;
    expect(name, wanted, xvfs_check(device, device_size, &report));
    expect(name, wanted, report.fault);
    if (report.at != at) fail("a fault is at", report.at);
    expect(name, wanted, xvfs_recover(device, device_size, &recovered));
    xvfs_told done;
    expect(name, wanted, xvfs_recover_step(device, device_size, 0, &done, block, sizeof block));
    expect(name, wanted, xvfs_open(&fs, device, device_size, 1, 0));
    make();
}
#define EXPECT_FAULT(name, at) expect_fault(#name, name, at)

static void see_faults(void) {
    make();
    put(1024, 7), EXPECT_FAULT(XVFS_E_BAD_MAGIC, 0);
    put(1028, 7), EXPECT_FAULT(XVFS_E_BAD_GEOMETRY, 0);
    put(2048, 31), EXPECT_FAULT(XVFS_E_BAD_LOG, 0);
    put(INODE_1, 4), EXPECT_FAULT(XVFS_E_BAD_TYPE, 1);
    put(INODE_1, 2), put(INODE_1 + 8, 274433), EXPECT_FAULT(XVFS_E_BAD_SIZE, 1);
    put(INODE_1, 2), put(INODE_1 + 12, 5), EXPECT_FAULT(XVFS_E_BAD_ADDRESS, 1);
    put(INODE_1, 2), put(INODE_1 + 12, 40), put(INODE_1 + 16, 40);
    device[BITMAP + 5] = 1, EXPECT_FAULT(XVFS_E_TWICE_USED, 40);
    put(INODE_1, 2), put(INODE_1 + 12, 41), EXPECT_FAULT(XVFS_E_USED_BUT_FREE, 41);
    device[BITMAP + 5] = 4, EXPECT_FAULT(XVFS_E_LOST_BLOCK, 42);
}

static void see_calls(void) {
    xvfs fs = XVFS_CLOSED_HANDLE;
    xvfs_op stat = {XVFS_OP_STAT, 1, 0, 0}, none = {(xvfs_op_kind)8, 1, 0, 0},
            large = {XVFS_OP_CREATE, 65536, 0, 0}, many = {XVFS_OP_LINKS, 1, 0, 65536};
    xvfs_stepped stepped;
    xvfs_answer answer;
    xvfs_report report;
    xvfs_told told_now;
    uint64_t n;
    uint32_t recovered;
    EXPECT(XVFS_VERSION_NUMBER, xvfs_version());
    EXPECT(XVFS_E_FILE_LENGTH, xvfs_check(device, 1023, &report));
    EXPECT(XVFS_E_FILE_LENGTH, xvfs_mkfs(device, 0, 32, 1));
    EXPECT(XVFS_E_FILE_LENGTH, xvfs_recover(device, 1025, &recovered));
    EXPECT(XVFS_E_FILE_LENGTH, xvfs_open(&fs, device, 0, 1, 0));
    EXPECT(XVFS_E_MKFS_SIZE, xvfs_mkfs(device, 37 * XVFS_BLOCK_SIZE, 32, 1));
    EXPECT(XVFS_E_MKFS_INODES, xvfs_mkfs(device, device_size, 1, 1));
    EXPECT(XVFS_E_OPEN_FLAGS, xvfs_open(&fs, device, device_size, 1, 2));
    EXPECT(XVFS_E_FILE_LENGTH, xvfs_recover_step(device, 0, 0, &told_now, block, sizeof block));
    EXPECT(XVFS_E_NO_BLOCK, xvfs_recover_step(device, device_size, 0, &told_now, block, 1));
    EXPECT(XVFS_E_RECOVER_LOG, xvfs_recover_step(device, 2048, 1, &told_now, block, sizeof block));
    EXPECT(XVFS_E_OPEN_PROCESSES, xvfs_open(&fs, device, device_size, 33, 0));
    put(2048, 1), put(2052, INODE_1 / XVFS_BLOCK_SIZE);
    EXPECT(XVFS_E_LOGGED, xvfs_open(&fs, device, device_size, 1, 0));
    make();
    EXPECT(XVFS_E_CLOSED, xvfs_try_step(&fs, 0, &stepped, block, sizeof block));
    EXPECT(XVFS_OK, xvfs_try_open(&fs, device, device_size, 1, 0));
    EXPECT(XVFS_E_OPEN, xvfs_try_open(&fs, device, device_size, 1, 0));
    EXPECT(XVFS_E_NO_PROCESS, xvfs_submit(&fs, 1, &stat, bytes, 0, &n));
    EXPECT(XVFS_E_NO_OPERATION, xvfs_submit(&fs, 0, &none, bytes, 0, &n));
    EXPECT(XVFS_E_NO_OPERATION, xvfs_submit(&fs, 0, &large, bytes, 0, &n));
    EXPECT(XVFS_E_NO_OPERATION, xvfs_submit(&fs, 0, &many, bytes, 0, &n));
    for (unsigned k = 0; k < XVFS_PLACES; k++)
        EXPECT(XVFS_OK, xvfs_try_submit(&fs, 0, &stat, bytes, 0, &n));
    EXPECT(XVFS_E_FULL, xvfs_submit(&fs, 0, &stat, bytes, 0, &n));
    EXPECT(XVFS_E_NO_PROCESS, xvfs_step(&fs, 1, &stepped, block, sizeof block));
    EXPECT(XVFS_E_NO_BLOCK, xvfs_step(&fs, 0, &stepped, block, 1023));
    EXPECT(XVFS_E_NO_PROCESS, xvfs_poll(&fs, 1, &answer, bytes, 0));
    EXPECT(XVFS_E_NO_ANSWER, xvfs_try_poll(&fs, 0, &answer, bytes, 0));
    xvfs_end(&fs);
    xvfs_end(&fs);
    EXPECT(XVFS_E_CLOSED, xvfs_try_poll(&fs, 0, &answer, bytes, 0));
}

/* The first call for memory of a call is refused. */
static void see_memory(void) {
    xvfs fs = XVFS_CLOSED_HANDLE;
    xvfs_op write = {XVFS_OP_WRITE, 1, 0, 0}, read = {XVFS_OP_READ, 1, 0, 100};
    xvfs_stepped stepped;
    xvfs_answer answer;
    xvfs_report report;
    uint64_t n;
    uint32_t recovered;
#define REFUSED(name, call) asked = 0, refuse_at = 1, EXPECT(name, call), refuse_at = 0
    REFUSED(XVFS_E_CHECK_MEMORY, xvfs_check(device, device_size, &report));
    REFUSED(XVFS_E_MKFS_MEMORY, xvfs_mkfs(device, device_size, 32, 1));
    REFUSED(XVFS_E_CHECK_MEMORY, xvfs_recover(device, device_size, &recovered));
    REFUSED(XVFS_E_OPEN_MEMORY, xvfs_open(&fs, device, device_size, 1, 0));
    EXPECT(XVFS_OK, xvfs_open(&fs, device, device_size, 1, 0));
    REFUSED(XVFS_E_SUBMIT_MEMORY, xvfs_submit(&fs, 0, &write, bytes, 100, &n));
    /* Of all operations a read alone takes memory at its beginning, for its bytes. */
    EXPECT(XVFS_OK, xvfs_submit(&fs, 0, &read, bytes, 0, &n));
    REFUSED(XVFS_OK, xvfs_step(&fs, 0, &stepped, block, sizeof block));
    EXPECT(XVFS_STEP_MEMORY, stepped.step);
    xvfs_close(&fs);
    EXPECT(XVFS_OK, xvfs_host_open(&host, &device_calls, room, device_size, 1, 0));
    EXPECT(XVFS_OK, xvfs_host_submit(&host, 0, read, bytes, 0, &n));
    REFUSED(XVFS_E_BEGIN_MEMORY, xvfs_host_finish(&host, 0, &answer, bytes, sizeof bytes));
    EXPECT(XVFS_OK, xvfs_host_finish(&host, 0, &answer, bytes, sizeof bytes));
    xvfs_host_close(&host);
}

/* An operation of process 0, from its beginning to its answer. */
static xvfs_answer call(xvfs_op_kind kind, uint32_t inum, uint32_t len, size_t count) {
    xvfs_op op = {kind, inum, 0, len};
    xvfs_stepped stepped;
    xvfs_answer answer;
    uint64_t n;
    memset(&answer, 255, sizeof answer);
    EXPECT(XVFS_OK, xvfs_host_submit(&host, 0, op, bytes, count, &n));
    do {
        step_writes = step_syncs = 0;
        EXPECT(XVFS_OK, xvfs_host_step(&host, 0, &stepped));
    } while (stepped.step == XVFS_STEP_MOVED);
    EXPECT(XVFS_STEP_ANSWERED, stepped.step);
    EXPECT(XVFS_OK, xvfs_poll(&host.fs, 0, &answer, bytes, sizeof bytes));
    return answer;
}

/* A stat tells of file 1 its type, its links and its length, and no other answer has links. */
static void see_links(void) {
    static const uint32_t counts[] = {0, 258, 65535, 1};
    make();
    EXPECT(XVFS_OK, xvfs_host_open(&host, &device_calls, room, device_size, 1, 0));
    if (call(XVFS_OP_CREATE, 2, 0, 0).links != 0) fail("a creation tells links", 0);
    if (call(XVFS_OP_STAT, 1, 0, 0).links != 1) fail("a new file has other links", 1);
    if (call(XVFS_OP_WRITE, 1, 0, 300).links != 0) fail("a write tells links", 0);
    for (unsigned k = 0; k < sizeof counts / sizeof *counts; k++) {
        EXPECT(XVFS_REPLY_DONE, call(XVFS_OP_LINKS, 1, counts[k], 0).reply);
        xvfs_answer told_of = call(XVFS_OP_STAT, 1, 0, 0);
        EXPECT(XVFS_REPLY_STAT, told_of.reply);
        if (told_of.links != counts[k]) fail("a stat tells other links", told_of.links);
        if (told_of.value != 2 || told_of.size != 300) fail("a stat tells another file", told_of.size);
    }
    xvfs_host_close(&host);
}

/* A file is cut to a length and keeps the bytes before it, or gets zeroes behind its end, at most as
 * many as one operation moves, and none where its image has no room for it. */
static void see_resize(void) {
    make();
    EXPECT(XVFS_OK, xvfs_host_open(&host, &device_calls, room, device_size, 1, 0));
    call(XVFS_OP_CREATE, 2, 0, 0);
    memset(bytes, 7, 1500);
    call(XVFS_OP_WRITE, 1, 0, 1500);
    EXPECT(XVFS_REPLY_TOO_LONG, call(XVFS_OP_RESIZE, 1, 1500 + XVFS_TRANSFER + 1, 0).reply);
    EXPECT(XVFS_REPLY_DONE, call(XVFS_OP_RESIZE, 1, 1100, 0).reply);
    EXPECT(XVFS_REPLY_WROTE, call(XVFS_OP_RESIZE, 1, 1500, 0).reply);
    if (call(XVFS_OP_READ, 1, 3000, 0).len != 1500) fail("a longer file has another length", 1500);
    for (unsigned k = 0; k < 1500; k++)
        if (bytes[k] != (k < 1100 ? 7 : 0)) fail("a longer file has other bytes", k);
    EXPECT(XVFS_REPLY_DONE, call(XVFS_OP_RESIZE, 1, 100, 0).reply);
    if (call(XVFS_OP_STAT, 1, 0, 0).size != 100) fail("a file that was cut has another length", 100);
    if (call(XVFS_OP_READ, 1, 3000, 0).len != 100) fail("a file that was cut has other bytes", 100);
    EXPECT(XVFS_REPLY_NO_FILE, call(XVFS_OP_RESIZE, 2, 0, 0).reply);
    xvfs_host_close(&host);
}

/* Too little room leaves an answer the oldest, however often, and the queue behind it in its order. */
static void see_short(void) {
    static const size_t rooms[] = {0, 1, 1499};
    xvfs_op read = {XVFS_OP_READ, 1, 0, 1500}, stat = {XVFS_OP_STAT, 1, 0, 0};
    xvfs_stepped stepped;
    xvfs_answer answer, blank;
    uint64_t n;
    make();
    EXPECT(XVFS_OK, xvfs_host_open(&host, &device_calls, room, device_size, 1, 0));
    call(XVFS_OP_CREATE, 2, 0, 0);
    memset(bytes, 7, 1500);
    call(XVFS_OP_WRITE, 1, 0, 1500);
    EXPECT(XVFS_OK, xvfs_submit(&host.fs, 0, &read, NULL, 0, &n));
    for (unsigned k = 1; k < XVFS_PLACES; k++) EXPECT(XVFS_OK, xvfs_submit(&host.fs, 0, &stat, NULL, 0, &n));
    do EXPECT(XVFS_OK, xvfs_host_step(&host, 0, &stepped)); while (stepped.step <= XVFS_STEP_ANSWERED);
    EXPECT(XVFS_STEP_IDLE, stepped.step);
    EXPECT(XVFS_OK, xvfs_submit(&host.fs, 0, &stat, NULL, 0, &n));
    EXPECT(XVFS_OK, xvfs_host_step(&host, 0, &stepped));
    EXPECT(XVFS_WHY_ANSWERS_FULL, stepped.why);
    memset(bytes, 9, sizeof bytes);
    memset(&blank, 255, sizeof blank);
    answer = blank;
    for (unsigned k = 0; k < sizeof rooms / sizeof *rooms; k++) {
        EXPECT(XVFS_E_SHORT, xvfs_poll(&host.fs, 0, &answer, rooms[k] ? bytes : NULL, rooms[k]));
        if (memcmp(&answer, &blank, sizeof answer) || bytes[0] != 9) fail("a refusal writes", k);
    }
    /* The answer that was looked at has no place of the queue any more. */
    do EXPECT(XVFS_OK, xvfs_host_step(&host, 0, &stepped)); while (stepped.step <= XVFS_STEP_ANSWERED);
    EXPECT(XVFS_STEP_IDLE, stepped.step);
    EXPECT(XVFS_OK, xvfs_poll(&host.fs, 0, &answer, bytes, 1500));
    if (answer.seq + XVFS_PLACES != n || answer.len != 1500) fail("another answer", answer.len);
    for (unsigned k = 0; k < 1500; k++) if (bytes[k] != 7) fail("another byte", k);
    if (bytes[1500] != 9) fail("one byte too many", bytes[1500]);
    for (unsigned k = 1; k <= XVFS_PLACES; k++) {
        EXPECT(XVFS_OK, xvfs_poll(&host.fs, 0, &answer, NULL, 0));
        if (answer.seq + XVFS_PLACES != n + k) fail("another order", k);
    }
    EXPECT(XVFS_E_NO_ANSWER, xvfs_poll(&host.fs, 0, &answer, NULL, 0));
    xvfs_host_close(&host);
}

int main(int argc, char **argv) {
    if (argc == 3 && !strcmp(argv[1], "refuse")) {
        refuse_each((uint64_t)atoll(argv[2]));
        return 0;
    }
    if (argc == 4 && !strcmp(argv[1], "held")) {
        flags = XVFS_HOLD;
        refuse_one_in = 40;
        for (unsigned k = 1; k <= (unsigned)atoi(argv[3]); k++) run((uint64_t)atoll(argv[2]) * 77 + k);
        printf("with XVFS_HOLD: %lu writes and %lu flushes told, %lu stops that lose writes\n", told, syncs,
               losses);
        return 0;
    }
    if (argc == 2 && !strcmp(argv[1], "numbers")) {
        see_faults();
        see_calls();
        see_memory();
        see_links();
        see_resize();
        see_short();
        printf("each refusal has the number that xvfs.h says, and a stat tells the links\n");
        return 0;
    }
    if (argc != 4) return 2;
    uint64_t seed = (uint64_t)atoll(argv[2]);
    unsigned runs = (unsigned)atoi(argv[3]);
    refuse_one_in = 40;
    for (unsigned k = 1; k <= runs; k++) write_run(argv[1], k, seed * 1000003 + k);
    printf("%u runs, %lu operations, %lu writes told, %lu stops, %lu refusals of memory\n", runs,
           operations, told, stops, refusals);
    return 0;
}
