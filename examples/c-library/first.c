/* Makes an image on a device and creates a file in it, is stopped before the third write of the commit,
 * opens the device again, which recovers it, and then writes and reads. What it prints stands in
 * first.stdout. Each step, and what is owed to the device behind it, is made by xvfs_host.h. */
#include <stdio.h>
#include <stdlib.h>
#include <string.h>
#include "xvfs_host.h"

#define BLOCKS 200u
#define BYTES (BLOCKS * XVFS_BLOCK_SIZE)

/* The host's own disk, and before which write it stops; 0 stops before none. */
struct disk {
    uint8_t bytes[BYTES];
    unsigned writes, stop;
};

static struct disk disk;
static uint8_t image[BYTES]; /* memory in which the disk is read at an opening */

static int read_block(void *context, uint32_t block, uint8_t *bytes) {
    struct disk *from = (struct disk *)context;
    memcpy(bytes, from->bytes + block * XVFS_BLOCK_SIZE, XVFS_BLOCK_SIZE);
    return 0;
}

static int write_block(void *context, uint32_t block, const uint8_t *bytes) {
    struct disk *to = (struct disk *)context;
    to->writes += 1;
    if (to->writes == to->stop) {
        printf("stopped before write %u, of block %u\n", to->writes, block);
        return -1;
    }
    memcpy(to->bytes + block * XVFS_BLOCK_SIZE, bytes, XVFS_BLOCK_SIZE);
    printf("write %u: block %u\n", to->writes, block);
    return 0;
}

static int sync_disk(void *context) {
    (void)context; /* memory holds nothing back */
    printf("sync\n");
    return 0;
}

/* Ends the program where a call was refused. */
static void is_done(const char *call, xvfs_result result) {
    if (result != XVFS_OK) {
        printf("%s: %s\n", call, xvfs_strerror(result));
        exit(1);
    }
}

static void print_report(const char *what) {
    xvfs_report report;
    is_done("check", xvfs_check(disk.bytes, BYTES, &report));
    printf("%s: %u blocks, logged %u, files %u\n", what, report.size, report.logged, report.files);
}

static void open_host(xvfs_host *host, unsigned stop) {
    xvfs_device device = {&disk, read_block, write_block, sync_disk};
    disk.writes = 0;
    disk.stop = stop;
    is_done("open", xvfs_host_open(host, &device, image, BYTES, 2, XVFS_HOLD));
}

int main(void) {
    static xvfs_host host = XVFS_CLOSED_HOST;
    static uint8_t bytes[XVFS_TRANSFER];
    xvfs_answer answer;

    is_done("mkfs", xvfs_mkfs(disk.bytes, BYTES, 32, 1));
    print_report("made");

    open_host(&host, 3);
    xvfs_op create = {XVFS_OP_CREATE, 2, 0, 0};
    if (xvfs_host_call(&host, 0, create, bytes, 0, &answer, bytes, 0) != XVFS_E_DEVICE) return 1;
    xvfs_host_close(&host);
    print_report("stopped");

    open_host(&host, 0);
    print_report("recovered");
    disk.writes = 0;
    xvfs_op write = {XVFS_OP_WRITE, 1, 0, 0};
    is_done("write", xvfs_host_call(&host, 1, write, (const uint8_t *)"to be", 5, &answer, bytes, 0));
    printf("answer %u of number %u: reply %u, value %u, group %u\n", 1, (unsigned)answer.seq,
           (unsigned)answer.reply, answer.value, (unsigned)answer.group);
    xvfs_op read = {XVFS_OP_READ, 1, 0, 100};
    is_done("read", xvfs_host_call(&host, 1, read, bytes, 0, &answer, bytes, sizeof bytes));
    printf("read %u bytes: %.*s\n", answer.len, (int)answer.len, bytes);
    xvfs_result result = xvfs_host_poll(&host, 1, &answer, bytes, sizeof bytes);
    if (result == XVFS_E_NO_ANSWER) printf("%s\n", xvfs_strerror(result));
    xvfs_host_close(&host);
    print_report("closed");
    return 0;
}
