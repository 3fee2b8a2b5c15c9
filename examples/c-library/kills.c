/*
 * Kills the teaching kernel of kernel.c at random, again and again over one disk, and boots it anew:
 * each time the disk has to be sound, and of each process's system calls exactly the first so many
 * have to be made, whole: all that returned, and at most the one that was under way.
 *
 * The calls of a process go round: it makes its file, writes ten records to it one by one, and
 * unlinks it. So how many it made can be told from what is on the disk.
 *
 * usage: kills DISK [KILLS [SEED]]
 */
#define _XOPEN_SOURCE 700
#define _DEFAULT_SOURCE
#include <pthread.h>
#include <signal.h>
#include <stdio.h>
#include <stdlib.h>
#include <string.h>
#include <sys/mman.h>
#include <sys/wait.h>
#include <unistd.h>

#include "kernel.h"

#define RECORDS 10u
#define ROUND (RECORDS + 2) /* calls: the file is made, written and unlinked */
#define RECORD_BYTES 1500u

/* How many calls a process began, and how many returned: in memory that outlives a kill. */
struct count {
    volatile unsigned begun, returned;
};
static struct count *counts;

static void fail(uint32_t process, const char *what) {
    fprintf(stderr, "kills: process %u: %s\n", process, what);
    _exit(3);
}

/* The record that a call writes: each byte tells process and call. */
static void fill(uint8_t *record, uint32_t process, unsigned call) {
    for (unsigned k = 0; k < RECORD_BYTES; k++)
        record[k] = (uint8_t)(process * 31 + call * 7 + k % 13 + call / 256);
}

static void name_of(char *name, uint32_t process) {
    snprintf(name, NAME_BYTES, "process%u", process);
}

/* Makes the call of that number of a process, from 0. */
static void make_call(uint32_t process, unsigned call) {
    char name[NAME_BYTES];
    uint8_t record[RECORD_BYTES], found[RECORD_BYTES];
    unsigned place = call % ROUND;
    name_of(name, process);
    if (place == 0) {
        if (sys_creat(process, name) < 0) fail(process, "no file is made");
        return;
    }
    if (place == ROUND - 1) {
        if (sys_unlink(process, name)) fail(process, "no file to unlink");
        return;
    }
    uint32_t offset = (place - 1) * RECORD_BYTES;
    int file = sys_open(process, name);
    fill(record, process, call);
    if (file < 0 || sys_write(process, file, offset, record, sizeof record) != (int)sizeof record)
        fail(process, "a record isn't written");
    if (sys_read(process, file, offset, found, sizeof found) != (int)sizeof found ||
        memcmp(found, record, sizeof found))
        fail(process, "a record isn't read back");
}

static void *run_process(void *given) {
    uint32_t process = (uint32_t)(uintptr_t)given;
    struct count *count = &counts[process];
    for (;;) {
        count->begun = count->returned + 1;
        make_call(process, count->returned);
        count->returned = count->begun;
    }
    return NULL;
}

/* The kernel and its processes, until they are killed. */
static void run(const char *disk) {
    pthread_t thread;
    kernel_boot(disk);
    for (uintptr_t process = 0; process < PROCESSES; process++)
        if (pthread_create(&thread, NULL, run_process, (void *)process)) _exit(4);
    kernel_serve();
}

/* Whether a process's file is as after its first so many calls. */
static int is_after(uint32_t process, unsigned calls) {
    char name[NAME_BYTES];
    uint8_t record[RECORD_BYTES], found[RECORD_BYTES];
    unsigned place = calls % ROUND, first = calls - place;
    name_of(name, process);
    int file = sys_open(process, name);
    if (place == 0) return file < 0;
    if (file < 0) return 0;
    for (unsigned k = 1; k < place; k++) {
        fill(record, process, first + k);
        if (sys_read(process, file, (k - 1) * RECORD_BYTES, found, sizeof found) !=
                (int)sizeof found ||
            memcmp(found, record, sizeof found))
            return 0;
    }
    return sys_read(process, file, (place - 1) * RECORD_BYTES, found, 1) == 0;
}

/* Boots the kernel and looks at what each process's calls left. */
static void look(const char *disk) {
    kernel_boot(disk);
    for (uint32_t process = 0; process < PROCESSES; process++) {
        struct count *count = &counts[process];
        if (is_after(process, count->begun)) count->returned = count->begun;
        else if (!is_after(process, count->returned)) fail(process, "its calls aren't whole");
        count->begun = count->returned;
    }
    kernel_halt();
}

int main(int argc, char **argv) {
    if (argc < 2) return 2;
    unsigned kills = argc > 2 ? (unsigned)atoi(argv[2]) : 30, calls = 0;
    srandom(argc > 3 ? (unsigned)atoi(argv[3]) : 1);
    counts = mmap(NULL, PROCESSES * sizeof *counts, PROT_READ | PROT_WRITE,
                  MAP_SHARED | MAP_ANONYMOUS, -1, 0);
    if (counts == MAP_FAILED) return 2;
    for (unsigned kill_number = 1; kill_number <= kills; kill_number++) {
        pid_t child = fork();
        int status;
        if (child < 0) return 2;
        if (child == 0) run(argv[1]);
        usleep(1000 + (useconds_t)(random() % 40000));
        kill(child, SIGKILL);
        waitpid(child, &status, 0);
        if (!WIFSIGNALED(status)) {
            fprintf(stderr, "kills: the kernel ended by itself before kill %u\n", kill_number);
            return 1;
        }
        look(argv[1]);
    }
    for (uint32_t process = 0; process < PROCESSES; process++) calls += counts[process].returned;
    fprintf(stderr, "kills: %u calls\n", calls);
    printf("%u kills, each amid the calls of %u processes: after each, whole calls alone, and all "
           "that returned\n", kills, PROCESSES);
    return 0;
}
