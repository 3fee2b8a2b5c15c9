/*
 * A small teaching kernel over the library. The library steps the operations of 8 processes; what is
 * left to a kernel stands here: the disk, the processes that wait, a directory, and system calls.
 *
 * The disk is a file, and xvfs_host.h brings to it what the steps tell, so that the program can be killed
 * anywhere. (The system keeps what was written when a program is killed. Where the machine itself can
 * stop, sync_disk has to call fdatasync: four times a commit, since the host is opened with XVFS_HOLD.)
 *
 * A process is a thread. It leaves its operation at its place in a table, under the one lock, and
 * waits; the thread that booted the kernel makes all calls of the library. (Each could make its own
 * under that lock: a session may be called from any thread, by one at a time.)
 *
 * Operations are made one by one, but each begins, by its first step, before the one before it goes
 * on to its end: so the log's group stays open, and what they have in common is written once. A
 * group is closed when nobody asks for more, or when the log has no room.
 *
 * A system call may need two operations, and a kill may come between them. sys_creat makes the file
 * first and then names it, sys_unlink takes the name away first and then the file: so no name is ever
 * without a file, and a file without a name is removed at the next boot. Thus each call is made
 * whole or not at all.
 */
#define _XOPEN_SOURCE 700
#include "kernel.h"

#include <fcntl.h>
#include <pthread.h>
#include <sched.h>
#include <stdio.h>
#include <stdlib.h>
#include <string.h>
#include <unistd.h>

#include "xvfs_host.h"

#define BLOCKS 600u
#define INODES 64u
#define ROOT 1u     /* the directory, which is the first file made */
#define ENTRIES 64u /* of it, so that it is read by one operation */
#define NOBODY UINT32_MAX

/* An entry of the directory, as in xv6: a file's number, or 0 where it is free, and its name. */
struct entry {
    uint16_t number;
    char name[NAME_BYTES];
};

/* What a process asks for. */
struct ask {
    enum { NOTHING, ASKED, BEGUN, ENDED, ANSWERED } state;
    xvfs_op op;
    const void *from;   /* the bytes of a write */
    uint32_t from_size;
    void *into;         /* where those of a read go */
    uint32_t into_size;
    xvfs_answer answer;
};

static int descriptor = -1; /* of the disk */
static uint8_t image[BLOCKS * XVFS_BLOCK_SIZE];
static xvfs_host host = XVFS_CLOSED_HOST;

static pthread_t server;
static pthread_mutex_t lock = PTHREAD_MUTEX_INITIALIZER; /* of all that follows */
static pthread_cond_t asked = PTHREAD_COND_INITIALIZER, answered = PTHREAD_COND_INITIALIZER;
static struct ask asks[PROCESSES];
static uint32_t opener = NOBODY; /* the process whose operation has begun, and keeps the group open */
static int directory_is_held;

static void must(int is_well, const char *what) {
    if (!is_well) {
        fprintf(stderr, "kernel: %s\n", what);
        exit(2);
    }
}

/* The disk. */

static int read_block(void *context, uint32_t block, uint8_t *bytes) {
    off_t at = (off_t)block * XVFS_BLOCK_SIZE;
    return pread(*(int *)context, bytes, XVFS_BLOCK_SIZE, at) != XVFS_BLOCK_SIZE;
}

static int write_block(void *context, uint32_t block, const uint8_t *bytes) {
    off_t at = (off_t)block * XVFS_BLOCK_SIZE;
    return pwrite(*(int *)context, bytes, XVFS_BLOCK_SIZE, at) != XVFS_BLOCK_SIZE;
}

static int sync_disk(void *context) {
    (void)context;
    return 0;
}

/* Operations. */

/* One step of a process. Whether it went on. */
static int step(uint32_t process) {
    xvfs_stepped stepped;
    xvfs_result result = xvfs_host_step(&host, process, &stepped);
    must(result == XVFS_OK, xvfs_strerror(result));
    if (stepped.step != XVFS_STEP_ANSWERED) return stepped.step == XVFS_STEP_MOVED;
    asks[process].state = ENDED;
    return 1;
}

/* Steps an operation to its answer. It waits for nobody, since no other has more than begun. */
static void finish(uint32_t process) {
    while (asks[process].state != ENDED) must(step(process), "an operation waits");
}

/* Ends the operation that keeps the group open, and with it commits the group. */
static void close_group(void) {
    if (opener != NOBODY) finish(opener);
    opener = NOBODY;
}

/* Hands in and begins what a process asked for. Then the one that had begun before goes on to its
 * answer, and the group stays open. A question is of no group, and is answered here. Whether it
 * joined the group. */
static int begin(uint32_t process) {
    struct ask *ask = &asks[process];
    uint64_t number;
    must(xvfs_host_submit(&host, process, ask->op, (const uint8_t *)ask->from, ask->from_size,
                          &number) == XVFS_OK, "an operation is refused");
    ask->state = BEGUN;
    if (!step(process)) { /* the log has no room */
        close_group();
        must(step(process), "an operation can't begin");
    }
    if (ask->op.kind == XVFS_OP_READ || ask->op.kind == XVFS_OP_STAT) finish(process);
    if (ask->state == ENDED) return 0;
    if (opener != NOBODY) finish(opener);
    opener = process;
    return 1;
}

/* Answers those whose group no stop can lose any more. Whether there were any. */
static int answer_kept(void) {
    int any = 0;
    for (uint32_t process = 0; process < PROCESSES; process++) {
        struct ask *ask = &asks[process];
        if (ask->state != ENDED) continue;
        xvfs_result result = xvfs_host_poll(&host, process, &ask->answer, (uint8_t *)ask->into,
                                            ask->into_size);
        if (result == XVFS_E_NOT_KEPT) continue;
        must(result == XVFS_OK, "no answer");
        ask->state = ANSWERED;
        any = 1;
    }
    return any;
}

/* An operation of a process, from its beginning to its answer. */
static xvfs_answer operate(uint32_t process, xvfs_op op, const void *from, uint32_t from_size,
                           void *into, uint32_t into_size) {
    static uint8_t none[1];
    struct ask *ask = &asks[process];
    pthread_mutex_lock(&lock);
    ask->op = op;
    ask->from = from ? from : none;
    ask->from_size = from_size;
    ask->into = into ? into : none;
    ask->into_size = into_size;
    ask->state = ASKED;
    if (pthread_equal(pthread_self(), server)) {
        begin(process);
        close_group();
        answer_kept();
        must(ask->state == ANSWERED, "an answer isn't kept");
    } else {
        pthread_cond_signal(&asked);
        while (ask->state != ANSWERED) pthread_cond_wait(&answered, &lock);
    }
    ask->state = NOTHING;
    xvfs_answer answer = ask->answer;
    pthread_mutex_unlock(&lock);
    return answer;
}

static xvfs_answer operate_on(uint32_t process, xvfs_op_kind kind, uint32_t number) {
    xvfs_op op = {kind, number, 0, 0};
    return operate(process, op, NULL, 0, NULL, 0);
}

void kernel_serve(void) {
    pthread_mutex_lock(&lock);
    for (;;) {
        int joined = 0;
        for (uint32_t process = 0; process < PROCESSES; process++)
            if (asks[process].state == ASKED) joined += begin(process);
        if (!joined) close_group();
        if (answer_kept()) pthread_cond_broadcast(&answered);
        else if (!joined) pthread_cond_wait(&asked, &lock);
        pthread_mutex_unlock(&lock); /* so that others get it */
        sched_yield();
        pthread_mutex_lock(&lock);
    }
}

/* The directory. It is one process's at a time while its entries are looked at and changed. */

static void hold_directory(void) {
    pthread_mutex_lock(&lock);
    while (directory_is_held) pthread_cond_wait(&answered, &lock);
    directory_is_held = 1;
    pthread_mutex_unlock(&lock);
}

static void give_directory_up(void) {
    pthread_mutex_lock(&lock);
    directory_is_held = 0;
    pthread_cond_broadcast(&answered);
    pthread_mutex_unlock(&lock);
}

static void read_entries(uint32_t process, struct entry *entries) {
    xvfs_op op = {XVFS_OP_READ, ROOT, 0, ENTRIES * sizeof *entries};
    memset(entries, 0, ENTRIES * sizeof *entries);
    operate(process, op, NULL, 0, entries, ENTRIES * sizeof *entries);
}

/* The place of a name, or of a free entry where the name is empty; -1 where there is none. */
static int place_of(const struct entry *entries, const char *name) {
    for (unsigned k = 0; k < ENTRIES; k++) {
        if (!*name && !entries[k].number) return (int)k;
        if (*name && entries[k].number && !strncmp(entries[k].name, name, NAME_BYTES)) return (int)k;
    }
    return -1;
}

static int write_entry(uint32_t process, int place, const struct entry *entry) {
    xvfs_op op = {XVFS_OP_WRITE, ROOT, (uint32_t)place * sizeof *entry, 0};
    xvfs_answer answer = operate(process, op, entry, sizeof *entry, NULL, 0);
    return answer.reply == XVFS_REPLY_WROTE && answer.value == sizeof *entry;
}

/* Makes a file and names it in the first free place. Places are taken in order, so none begins
 * behind the directory's end. */
static int make_file(uint32_t process, const struct entry *entries, const char *name) {
    struct entry entry = {0, ""};
    int place = place_of(entries, "");
    if (place < 0) return -1;
    xvfs_answer made = operate_on(process, XVFS_OP_CREATE, 2);
    if (made.reply != XVFS_REPLY_MADE) return -1;
    entry.number = (uint16_t)made.value;
    memcpy(entry.name, name, strnlen(name, NAME_BYTES));
    if (write_entry(process, place, &entry)) return (int)made.value;
    operate_on(process, XVFS_OP_REMOVE, made.value);
    return -1;
}

/* System calls. */

int sys_creat(uint32_t process, const char *name) {
    struct entry entries[ENTRIES];
    if (!*name) return -1;
    hold_directory();
    read_entries(process, entries);
    int place = place_of(entries, name);
    int file = place < 0 ? make_file(process, entries, name) : entries[place].number;
    give_directory_up();
    return file;
}

int sys_open(uint32_t process, const char *name) {
    struct entry entries[ENTRIES];
    if (!*name) return -1;
    read_entries(process, entries);
    int place = place_of(entries, name);
    return place < 0 ? -1 : entries[place].number;
}

int sys_write(uint32_t process, int file, uint32_t offset, const void *bytes, uint32_t count) {
    xvfs_op op = {XVFS_OP_WRITE, (uint32_t)file, offset, 0};
    xvfs_answer answer = operate(process, op, bytes, count, NULL, 0);
    return answer.reply == XVFS_REPLY_WROTE ? (int)answer.value : -1;
}

int sys_read(uint32_t process, int file, uint32_t offset, void *bytes, uint32_t count) {
    xvfs_op op = {XVFS_OP_READ, (uint32_t)file, offset, count};
    xvfs_answer answer = operate(process, op, NULL, 0, bytes, count);
    return answer.reply == XVFS_REPLY_BYTES ? (int)answer.len : -1;
}

int sys_unlink(uint32_t process, const char *name) {
    struct entry entries[ENTRIES], none = {0, ""};
    if (!*name) return -1;
    hold_directory();
    read_entries(process, entries);
    int place = place_of(entries, name);
    if (place >= 0 && !write_entry(process, place, &none)) place = -1;
    if (place >= 0) operate_on(process, XVFS_OP_REMOVE, entries[place].number);
    give_directory_up();
    return place < 0 ? -1 : 0;
}

/* Boot and halt. */

/* The directory is made once; a file without a name is of a call that a kill cut off. */
static void tidy_up(void) {
    struct entry entries[ENTRIES];
    if (operate_on(0, XVFS_OP_STAT, ROOT).reply != XVFS_REPLY_STAT)
        must(operate_on(0, XVFS_OP_CREATE, 1).value == ROOT, "the directory isn't file 1");
    read_entries(0, entries);
    for (uint32_t number = ROOT + 1; number < INODES; number++) {
        int is_named = 0;
        for (unsigned k = 0; k < ENTRIES; k++) is_named |= entries[k].number == number;
        if (!is_named && operate_on(0, XVFS_OP_STAT, number).reply == XVFS_REPLY_STAT)
            operate_on(0, XVFS_OP_REMOVE, number);
    }
}

void kernel_boot(const char *disk) {
    xvfs_device device = {&descriptor, read_block, write_block, sync_disk};
    xvfs_result result;
    server = pthread_self();
    descriptor = open(disk, O_RDWR | O_CREAT, 0666);
    must(descriptor >= 0, "the disk can't be opened");
    if (lseek(descriptor, 0, SEEK_END) < (off_t)sizeof image)
        must(ftruncate(descriptor, sizeof image) == 0, "the disk can't be made");
    result = xvfs_host_open(&host, &device, image, sizeof image, PROCESSES, XVFS_HOLD);
    if (result == XVFS_E_BAD_MAGIC) {
        must(xvfs_host_mkfs(&device, image, sizeof image, INODES, 1) == XVFS_OK, "no image is made");
        result = xvfs_host_open(&host, &device, image, sizeof image, PROCESSES, XVFS_HOLD);
    }
    must(result == XVFS_OK, xvfs_strerror(result));
    tidy_up();
}

void kernel_halt(void) {
    xvfs_host_close(&host);
    close(descriptor);
}
