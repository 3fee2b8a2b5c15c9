/* Writes a file block by block with pwrite: what `mkfs` is compared with. Give the path and the number
   of blocks of 1024 bytes. With two numbers more it makes so many writes over the blocks of a file that
   is there, and so many syncs of the file's data, in the order in which the commits of a log make them:
   what a replay with `--sync` is compared with. */
#include <fcntl.h>
#include <stdlib.h>
#include <unistd.h>

static char block[1024];

static int put(int file, long at) {
    return pwrite(file, block, sizeof block, at * sizeof block) == sizeof block;
}

static int make(char *path, long blocks) {
    int file = open(path, O_RDWR | O_CREAT | O_TRUNC, 0666);
    if (file < 0 || ftruncate(file, blocks * sizeof block) != 0) return 1;
    for (long at = 0; at < blocks; at++)
        if (!put(file, at)) return 1;
    return 0;
}

/* So many blocks from a place on, and a sync. */
static int put_run(int file, long first, long count) {
    for (long k = 0; k < count; k++)
        if (!put(file, first + k)) return 0;
    return fdatasync(file) == 0;
}

/* A commit: log blocks, header, homes, which are the inodes' block and files of twelve blocks, and the
   empty header, each with a sync behind it. */
static int commit(int file, long number, long writes) {
    long homes = (writes - 2) / 2, logged = writes - 2 - homes;
    if (!put_run(file, 3, logged) || !put_run(file, 2, 1) || !put(file, 33)) return 0;
    for (long k = 1; k < homes; k++) {
        long of = (number + k / 3) % 4, piece = number / 4 % 4;
        if (!put(file, 37 + 12 * of + 3 * piece + k % 3)) return 0;
    }
    return fdatasync(file) == 0 && put_run(file, 2, 1);
}

static int overwrite(char *path, long blocks, long writes, long syncs) {
    int file = open(path, O_RDWR);
    long commits = syncs / 4, made = 0;
    if (file < 0 || blocks < 98 || commits < 1) return 1;
    for (long number = 0; number < commits; number++) {
        long next = writes * (number + 1) / commits;
        if (!commit(file, number, next - made)) return 1;
        made = next;
    }
    for (long synced = 4 * commits; synced < syncs; synced++)
        if (fdatasync(file) != 0) return 1;
    return 0;
}

int main(int count, char **words) {
    if (count == 3) return make(words[1], atol(words[2]));
    if (count == 5) return overwrite(words[1], atol(words[2]), atol(words[3]), atol(words[4]));
    return 2;
}
