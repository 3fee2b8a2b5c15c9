/*
 * A kernel on bare x86-64 that stands on libxvfs.a. It recovers its disk, or makes an image on it, and
 * then runs four processes by turns, a step of one and a step of another, for ever.
 *
 * Each process has a file of 12 records, and writes them over again and again: record n stands at place
 * n % 12 and begins with n. Every 13th time it also makes a file, writes to it and removes it. What no
 * stop can lose any more is told on the serial line: "kept P N", record N of process P. At the next boot
 * each record has to be there, whole, and "found P N" tells how many there are.
 */
#include "machine.h"

#define BLOCKS 300u
#define INODES 32u
#define PROCESSES 4u
#define RECORDS 12u
#define RECORD 700u

struct process {
    enum { WRITES, MAKES, FILLS, REMOVES } does;
    enum { IDLE, STEPS, WAITS } at;
    uint64_t next;    /* the record that is written next */
    uint32_t scratch; /* the file that is made and removed again */
};

static uint8_t image[BLOCKS * XVFS_BLOCK_SIZE], bytes[XVFS_TRANSFER], wanted[RECORD];
static xvfs_host host = XVFS_CLOSED_HOST;
static struct process processes[PROCESSES];

static void must(xvfs_result result, const char *what) {
    if (result != XVFS_OK) halt(what, result);
}

static void say(const char *what, uint32_t pid, uint64_t number) {
    print(what);
    print(" ");
    print_number(pid);
    print(" ");
    print_number(number);
    print("\n");
}

static uint32_t file_of(uint32_t pid) { return pid + 1; }

/* The bytes of a record of a process. */
static void fill(uint8_t *record, uint32_t pid, uint64_t number) {
    uint32_t at;
    for (at = 0; at < sizeof number; at++) record[at] = (uint8_t)(number >> 8 * at);
    for (; at < RECORD; at++) record[at] = (uint8_t)(pid * 50 + number * 7 + at % 13);
}

static uint64_t number_in(const uint8_t *record) {
    uint64_t number = 0;
    uint32_t at;
    for (at = 0; at < sizeof number; at++) number |= (uint64_t)record[at] << 8 * at;
    return number;
}

/* An operation of process 0 while no other has one. The bytes of a read come to `bytes`. */
static xvfs_answer call(xvfs_op_kind kind, uint32_t inum, uint32_t offset, uint32_t len) {
    xvfs_op op = {kind, inum, offset, len};
    xvfs_answer answer;
    must(xvfs_host_call(&host, 0, op, bytes, 0, &answer, bytes, sizeof bytes), "a call");
    return answer;
}

/* ---- the boot */

static void boot(void) {
    xvfs_result result = xvfs_host_open(&host, &disk, image, sizeof image, PROCESSES, XVFS_HOLD);
    if (result == XVFS_E_BAD_MAGIC) {
        must(xvfs_host_mkfs(&disk, image, sizeof image, INODES, 1), "an image");
        print("made\n");
        result = xvfs_host_open(&host, &disk, image, sizeof image, PROCESSES, XVFS_HOLD);
    }
    must(result, "the disk");
}

/* Each process has its file, and those that a stop left in the midst of the others go. */
static void tidy(void) {
    uint32_t pid, inum;
    for (pid = 0; pid < PROCESSES; pid++) {
        if (call(XVFS_OP_STAT, file_of(pid), 0, 0).reply == XVFS_REPLY_STAT) continue;
        if (call(XVFS_OP_CREATE, 2, 0, 0).value != file_of(pid)) halt("another file", pid);
    }
    for (inum = PROCESSES + 1; inum < INODES; inum++)
        if (call(XVFS_OP_STAT, inum, 0, 0).reply == XVFS_REPLY_STAT) call(XVFS_OP_REMOVE, inum, 0, 0);
}

/* Looks at the records of a process: each is whole, and none between the oldest and the newest is missing. */
static void find(uint32_t pid) {
    uint32_t size = call(XVFS_OP_STAT, file_of(pid), 0, 0).size, at, place;
    uint64_t first = UINT64_MAX, behind = 0;
    if (size % RECORD || size / RECORD > RECORDS) halt("a record is cut", pid);
    for (place = 0; place < size / RECORD; place++) {
        uint64_t number;
        call(XVFS_OP_READ, file_of(pid), place * RECORD, RECORD);
        number = number_in(bytes);
        fill(wanted, pid, number);
        for (at = 0; at < RECORD; at++)
            if (bytes[at] != wanted[at]) halt("a record is torn", number);
        if (number % RECORDS != place) halt("a record is elsewhere", number);
        if (number < first) first = number;
        if (number >= behind) behind = number + 1;
    }
    if (size && behind - first != size / RECORD) halt("a record is missing", pid);
    processes[pid].next = behind;
    say("found", pid, behind);
}

/* ---- the processes */

/* Hands in what a process does next. */
static void begin(uint32_t pid) {
    struct process *process = &processes[pid];
    xvfs_op write = {XVFS_OP_WRITE, file_of(pid), (uint32_t)(process->next % RECORDS) * RECORD, 0};
    xvfs_op make = {XVFS_OP_CREATE, 2, 0, 0}, content = {XVFS_OP_WRITE, process->scratch, 0, 0};
    xvfs_op remove = {XVFS_OP_REMOVE, process->scratch, 0, 0};
    const xvfs_op ops[] = {write, make, content, remove};
    const uint32_t counts[] = {RECORD, 0, 2000, 0};
    uint64_t seq;
    fill(bytes, pid, process->next);
    must(xvfs_host_submit(&host, pid, ops[process->does], bytes, counts[process->does], &seq),
         "an operation");
    process->at = STEPS;
}

/* What follows on an answer. */
static void follow(uint32_t pid, const xvfs_answer *answer) {
    struct process *process = &processes[pid];
    switch (process->does) {
    case WRITES:
        if (answer->reply != XVFS_REPLY_WROTE || answer->value != RECORD) halt("not written", pid);
        say("kept", pid, process->next);
        process->next++;
        if (process->next % 13 == 0) process->does = MAKES;
        break;
    case MAKES:
        if (answer->reply != XVFS_REPLY_MADE) halt("not made", pid);
        process->scratch = answer->value;
        process->does = FILLS;
        break;
    case FILLS:
        process->does = REMOVES;
        break;
    case REMOVES:
        if (answer->reply != XVFS_REPLY_DONE) halt("not removed", pid);
        process->does = WRITES;
    }
}

/* A process goes on by a step at most. Its answer comes once no stop can lose it. */
static void go(uint32_t pid) {
    struct process *process = &processes[pid];
    xvfs_stepped stepped;
    xvfs_answer answer;
    xvfs_result result;
    if (process->at == IDLE) begin(pid);
    if (process->at == STEPS) {
        must(xvfs_host_step(&host, pid, &stepped), "a step");
        if (stepped.step == XVFS_STEP_MEMORY) halt("no memory", pid);
        if (stepped.step == XVFS_STEP_ANSWERED) process->at = WAITS;
        return;
    }
    result = xvfs_host_poll(&host, pid, &answer, bytes, 0);
    if (result == XVFS_E_NOT_KEPT) return;
    must(result, "an answer");
    process->at = IDLE;
    follow(pid, &answer);
}

void kernel(void) {
    uint64_t chance = 88172645463325252u;
    uint32_t pid;
    boot();
    tidy();
    for (pid = 0; pid < PROCESSES; pid++) find(pid);
    say("runs, of the heap", 0, most_of_heap());
    for (;;) {
        chance ^= chance << 13;
        chance ^= chance >> 7;
        chance ^= chance << 17;
        go((uint32_t)(chance >> 33) % PROCESSES);
    }
}
