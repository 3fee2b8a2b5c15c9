// Lays out an image as xv6's own mkfs does (mkfs/mkfs.c of xv6-riscv, MIT licence): 2000 blocks,
// 200 inode numbers, a root directory with a name for each file, and the files' blocks one behind
// the other in the order in which they were appended. Nothing here knows of this project's program.
//
//     mkfs IMAGE FILE...
#include <assert.h>
#include <fcntl.h>
#include <stdint.h>
#include <stdio.h>
#include <stdlib.h>
#include <string.h>
#include <unistd.h>

enum {
    BLOCK = 1024,
    SIZE = 2000,
    INODES = 200,
    // A header, and 30 logged blocks.
    LOG = 31,
    DIRECT = 12,
    ENTRIES = BLOCK / 4,
    NAME = 14,
    ROOT = 1,
    DIRECTORY = 1,
    PLAIN = 2,
};

struct superblock {
    uint32_t magic, size, nblocks, ninodes, nlog, logstart, inodestart, bmapstart;
};

struct inode {
    uint16_t type, major, minor, nlink;
    uint32_t size, addrs[DIRECT + 1];
};

struct entry {
    uint16_t number;
    char name[NAME];
};

static int image;
static struct superblock super;
static uint32_t next_inode = 1, next_block;

static void at(uint32_t block) { assert(lseek(image, (off_t)block * BLOCK, SEEK_SET) >= 0); }

static void write_block(uint32_t block, const void *bytes) {
    at(block);
    assert(write(image, bytes, BLOCK) == BLOCK);
}

static void read_block(uint32_t block, void *bytes) {
    at(block);
    assert(read(image, bytes, BLOCK) == BLOCK);
}

static uint32_t block_of(uint32_t number) {
    return super.inodestart + number / (BLOCK / sizeof(struct inode));
}

static struct inode inode_of(uint32_t number) {
    struct inode inodes[BLOCK / sizeof(struct inode)];
    read_block(block_of(number), inodes);
    return inodes[number % (BLOCK / sizeof(struct inode))];
}

static void set_inode(uint32_t number, struct inode inode) {
    struct inode inodes[BLOCK / sizeof(struct inode)];
    read_block(block_of(number), inodes);
    inodes[number % (BLOCK / sizeof(struct inode))] = inode;
    write_block(block_of(number), inodes);
}

static uint32_t new_inode(uint16_t type) {
    struct inode inode = {.type = type, .nlink = 1};
    set_inode(next_inode, inode);
    return next_inode++;
}

// The block that holds the file's block `index`, taken where there is none.
static uint32_t data_block(struct inode *inode, uint32_t index) {
    if (index < DIRECT) {
        if (inode->addrs[index] == 0)
            inode->addrs[index] = next_block++;
        return inode->addrs[index];
    }
    assert(index - DIRECT < ENTRIES);
    if (inode->addrs[DIRECT] == 0)
        inode->addrs[DIRECT] = next_block++;
    uint32_t entries[ENTRIES];
    read_block(inode->addrs[DIRECT], entries);
    if (entries[index - DIRECT] == 0) {
        entries[index - DIRECT] = next_block++;
        write_block(inode->addrs[DIRECT], entries);
    }
    return entries[index - DIRECT];
}

static void append(uint32_t number, const char *bytes, uint32_t count) {
    struct inode inode = inode_of(number);
    while (count > 0) {
        uint32_t block = data_block(&inode, inode.size / BLOCK);
        uint32_t from = inode.size % BLOCK;
        uint32_t some = count < BLOCK - from ? count : BLOCK - from;
        char data[BLOCK];
        read_block(block, data);
        memcpy(data + from, bytes, some);
        write_block(block, data);
        inode.size += some;
        bytes += some;
        count -= some;
    }
    set_inode(number, inode);
}

static void append_entry(uint32_t number, const char *name) {
    struct entry entry = {.number = (uint16_t)number};
    strncpy(entry.name, name, NAME);
    append(ROOT, (const char *)&entry, sizeof(entry));
}

static void append_file(const char *path) {
    const char *slash = strrchr(path, '/');
    uint32_t number = new_inode(PLAIN);
    append_entry(number, slash ? slash + 1 : path);
    int file = open(path, O_RDONLY);
    assert(file >= 0);
    char bytes[BLOCK];
    ssize_t count;
    while ((count = read(file, bytes, sizeof(bytes))) > 0)
        append(number, bytes, (uint32_t)count);
    close(file);
}

// The first blocks are used, as many as were taken.
static void mark(uint32_t used) {
    uint8_t bits[BLOCK] = {0};
    assert(used < BLOCK * 8);
    for (uint32_t block = 0; block < used; block++)
        bits[block / 8] |= (uint8_t)(1 << block % 8);
    write_block(super.bmapstart, bits);
}

int main(int count, char *words[]) {
    static const char zeroes[BLOCK];
    char bytes[BLOCK] = {0};
    if (count < 2) {
        fprintf(stderr, "usage: mkfs IMAGE FILE...\n");
        return 2;
    }
    image = open(words[1], O_RDWR | O_CREAT | O_TRUNC, 0666);
    assert(image >= 0 && sizeof(struct inode) == 64 && sizeof(struct entry) == 16);
    uint32_t inode_blocks = INODES / (BLOCK / sizeof(struct inode)) + 1;
    uint32_t bitmap_blocks = SIZE / (BLOCK * 8) + 1;
    next_block = 2 + LOG + inode_blocks + bitmap_blocks;
    super = (struct superblock){
        .magic = 0x10203040, .size = SIZE, .nblocks = SIZE - next_block, .ninodes = INODES,
        .nlog = LOG, .logstart = 2, .inodestart = 2 + LOG, .bmapstart = 2 + LOG + inode_blocks,
    };
    for (uint32_t block = 0; block < SIZE; block++)
        write_block(block, zeroes);
    memcpy(bytes, &super, sizeof(super));
    write_block(1, bytes);
    assert(new_inode(DIRECTORY) == ROOT);
    append_entry(ROOT, ".");
    append_entry(ROOT, "..");
    for (int word = 2; word < count; word++)
        append_file(words[word]);
    // The directory's length is rounded up to whole blocks.
    struct inode root = inode_of(ROOT);
    root.size = (root.size / BLOCK + 1) * BLOCK;
    set_inode(ROOT, root);
    mark(next_block);
    return 0;
}
