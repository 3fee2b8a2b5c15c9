/* second.h: images, their recovery and check, and the operations. */
#include "second.h"

#include <string.h>

#define BLOCK XVFS_BLOCK_SIZE
#define LOG 2u
#define INODES 33u    /* the first block of inodes */
#define POINTERS 13u  /* of an inode */
#define ENTRIES 256u  /* of a block of addresses */
#define FIRST_MAGIC 0x10203040u
#define SECOND_MAGIC 0x10203041u

static uint32_t number_at(const uint8_t *at) {
    return at[0] | (uint32_t)at[1] << 8 | (uint32_t)at[2] << 16 | (uint32_t)at[3] << 24;
}

static void put_number(uint8_t *at, uint32_t number) {
    for (unsigned k = 0; k < 4; k++) at[k] = (uint8_t)(number >> 8 * k);
}

static uint32_t half_at(const uint8_t *at) { return at[0] | (uint32_t)at[1] << 8; }

static void put_half(uint8_t *at, uint32_t number) {
    at[0] = (uint8_t)number;
    at[1] = (uint8_t)(number >> 8);
}

/* Places of an image. */

static size_t place_of(uint32_t block) { return (size_t)block * BLOCK; }
static uint32_t field_of(const uint8_t *image, unsigned k) { return number_at(image + BLOCK + 4 * k); }
static uint32_t size_of(const uint8_t *image) { return field_of(image, 1); }
static uint32_t inodes_of(const uint8_t *image) { return field_of(image, 3); }
static uint32_t bitmap_of(const uint8_t *image) { return field_of(image, 7); }
static uint32_t data_of(const uint8_t *image) { return size_of(image) - field_of(image, 2); }
static uint32_t form_of(const uint8_t *image) { return field_of(image, 0) == SECOND_MAGIC ? 2 : 1; }
static size_t inode_at(uint32_t inum) { return place_of(INODES) + 64 * (size_t)inum; }

static int has_bit(const uint8_t *image, uint32_t block) {
    return image[place_of(bitmap_of(image)) + block / 8] >> block % 8 & 1;
}

static void flip_bit(uint8_t *image, uint32_t block) {
    image[place_of(bitmap_of(image)) + block / 8] ^= (uint8_t)(1u << block % 8);
}

static uint32_t greatest_size(uint32_t form) { return (form == 2 ? 65803u : 268u) * BLOCK; }

/* How many blocks of addresses a pointer of an inode leads through, and its first block of the file. */
static unsigned depth_of(uint32_t form, uint32_t pointer) {
    if (form == 2) return pointer < 11 ? 0 : pointer - 10;
    return pointer == 12;
}

static uint32_t first_of(uint32_t form, uint32_t pointer) {
    return form == 2 && pointer == 12 ? 11 + ENTRIES : pointer;
}

/* Making. */

static xvfs_result length_fault(size_t len) {
    return len == 0 || len % BLOCK || len / BLOCK > XVFS_MAX_BLOCKS ? XVFS_E_FILE_LENGTH : XVFS_OK;
}

/* The superblock of an image of so many blocks. */
static void plan(uint32_t fields[8], uint32_t size, uint32_t ninodes, uint32_t form) {
    uint32_t bitmap = INODES + ninodes / 16 + 1;
    fields[0] = form == 2 ? SECOND_MAGIC : FIRST_MAGIC;
    fields[1] = size;
    fields[2] = size - (bitmap + size / 8192 + 1);
    fields[3] = ninodes;
    fields[4] = 31;
    fields[5] = LOG;
    fields[6] = INODES;
    fields[7] = bitmap;
}

static int has_room(uint32_t size, uint32_t ninodes) {
    return size > INODES + ninodes / 16 + 1 + size / 8192 + 1;
}

xvfs_result second_mkfs(uint8_t *image, size_t len, uint32_t ninodes, uint32_t form) {
    uint32_t fields[8], size = (uint32_t)(len / BLOCK);
    if (length_fault(len)) return XVFS_E_FILE_LENGTH;
    if (ninodes < 2 || ninodes > 1024) return XVFS_E_MKFS_INODES;
    if (!has_room(size, ninodes)) return XVFS_E_MKFS_SIZE;
    memset(image, 0, len);
    plan(fields, size, ninodes, form);
    for (unsigned k = 0; k < 8; k++) put_number(image + BLOCK + 4 * k, fields[k]);
    for (uint32_t block = 0; block < data_of(image); block++) flip_bit(image, block);
    return XVFS_OK;
}

/* Recovery. */

uint32_t second_recover(uint8_t *image) {
    uint8_t *header = image + place_of(LOG);
    uint32_t count = number_at(header);
    for (uint32_t k = 0; k < count; k++)
        memcpy(image + place_of(number_at(header + 4 + 4 * k)), header + place_of(1 + k), BLOCK);
    if (count) memset(header, 0, BLOCK);
    return count;
}

/* The check. */

struct check {
    const uint8_t *image;              /* as recovery leaves it */
    uint32_t inum, size;               /* of the inode that is looked at */
    uint8_t is_seen[XVFS_MAX_BLOCKS];  /* by block */
    xvfs_result fault;
    uint32_t at;
};

/* Whether there is no fault. */
static int tell(struct check *check, xvfs_result fault, uint32_t at) {
    check->fault = fault;
    check->at = at;
    return fault == XVFS_OK;
}

static int see_address(struct check *check, uint32_t address, int is_needed) {
    const uint8_t *image = check->image;
    if (address == 0) return !is_needed || tell(check, XVFS_E_BAD_ADDRESS, check->inum);
    if (address < data_of(image) || address >= size_of(image))
        return tell(check, XVFS_E_BAD_ADDRESS, check->inum);
    if (check->is_seen[address]) return tell(check, XVFS_E_TWICE_USED, address);
    if (!has_bit(image, address)) return tell(check, XVFS_E_USED_BUT_FREE, address);
    check->is_seen[address] = 1;
    return 1;
}

/* Sees an address that leads to the file's blocks from `first` on, and those below it. */
static int see_tree(struct check *check, uint32_t address, uint32_t first, unsigned depth) {
    if (!see_address(check, address, (uint64_t)first * BLOCK < check->size)) return 0;
    if (address == 0 || depth == 0) return 1;
    for (uint32_t k = 0; k < ENTRIES; k++) {
        uint32_t entry = number_at(check->image + place_of(address) + 4 * k);
        if (!see_tree(check, entry, first + k * (depth == 2 ? ENTRIES : 1), depth - 1)) return 0;
    }
    return 1;
}

static int see_inode(struct check *check, uint32_t inum) {
    const uint8_t *inode = check->image + inode_at(inum);
    uint32_t form = form_of(check->image);
    if (half_at(inode) > 3) return tell(check, XVFS_E_BAD_TYPE, inum);
    if (half_at(inode) == 0) return 1;
    check->inum = inum;
    check->size = number_at(inode + 8);
    if (check->size > greatest_size(form)) return tell(check, XVFS_E_BAD_SIZE, inum);
    for (uint32_t k = 0; k < POINTERS; k++) {
        uint32_t address = number_at(inode + 12 + 4 * k);
        if (!see_tree(check, address, first_of(form, k), depth_of(form, k))) return 0;
    }
    return 1;
}

static int see_bitmap(struct check *check) {
    const uint8_t *image = check->image;
    for (uint32_t block = 0; block < size_of(image); block++) {
        int is_data = block >= data_of(image);
        if (!is_data && !has_bit(image, block)) return tell(check, XVFS_E_USED_BUT_FREE, block);
        if (is_data && has_bit(image, block) && !check->is_seen[block])
            return tell(check, XVFS_E_LOST_BLOCK, block);
    }
    return 1;
}

static int is_lawful_log(const uint8_t *image) {
    const uint8_t *header = image + place_of(LOG);
    uint32_t count = number_at(header);
    if (count > 30) return 0;
    for (uint32_t k = 0; k < count; k++) {
        uint32_t home = number_at(header + 4 + 4 * k);
        if (home < INODES || home >= size_of(image)) return 0;
        for (uint32_t other = 0; other < k; other++)
            if (number_at(header + 4 + 4 * other) == home) return 0;
    }
    return 1;
}

static xvfs_result see_super(const uint8_t *image, size_t len) {
    uint32_t fields[8], size = (uint32_t)(len / BLOCK), ninodes, magic;
    if (size < 2) return XVFS_E_BAD_GEOMETRY;
    magic = field_of(image, 0);
    ninodes = inodes_of(image);
    if (magic != FIRST_MAGIC && magic != SECOND_MAGIC) return XVFS_E_BAD_MAGIC;
    if (ninodes < 2 || ninodes > 1024 || !has_room(size, ninodes)) return XVFS_E_BAD_GEOMETRY;
    plan(fields, size, ninodes, form_of(image));
    for (unsigned k = 0; k < 8; k++)
        if (field_of(image, k) != fields[k]) return XVFS_E_BAD_GEOMETRY;
    return is_lawful_log(image) ? XVFS_OK : XVFS_E_BAD_LOG;
}

/* What a check finds behind superblock and log, and how many files. */
static void see_files(struct check *check, const uint8_t *image, uint32_t *files) {
    memset(check, 0, sizeof *check);
    check->image = image;
    *files = 0;
    for (uint32_t inum = 1; inum < inodes_of(image); inum++) {
        if (!see_inode(check, inum)) return;
        *files += half_at(image + inode_at(inum)) != 0;
    }
    see_bitmap(check);
}

xvfs_result second_check(const uint8_t *image, size_t len, xvfs_report *out) {
    static uint8_t copy[XVFS_MAX_BLOCKS * BLOCK];
    static struct check check;
    uint32_t logged, files;
    if (length_fault(len)) return XVFS_E_FILE_LENGTH;
    out->fault = see_super(image, len);
    out->at = 0;
    if (out->fault) return out->fault;
    memcpy(copy, image, len);
    logged = second_recover(copy);
    see_files(&check, copy, &files);
    out->fault = check.fault;
    out->at = check.at;
    if (out->fault) return out->fault;
    out->form = form_of(image);
    out->size = size_of(image);
    out->nblocks = field_of(image, 2);
    out->ninodes = inodes_of(image);
    out->logged = logged;
    out->files = files;
    return XVFS_OK;
}

/* Operations. */

/* The lowest free block, made empty; 0 where there is none. */
static uint32_t take_block(uint8_t *image) {
    for (uint32_t block = data_of(image); block < size_of(image); block++) {
        if (has_bit(image, block)) continue;
        flip_bit(image, block);
        memset(image + place_of(block), 0, BLOCK);
        return block;
    }
    return 0;
}

/* The pointer of the inode, and then the entries, that lead to a block of the file: how many. */
static unsigned path_to(uint32_t form, uint32_t k, uint32_t path[3]) {
    uint32_t pointer = form == 2 ? 11 : 12;
    if (k < pointer) {
        path[0] = k;
        return 1;
    }
    path[0] = pointer;
    path[1] = k - pointer;
    if (path[1] < ENTRIES) return 2;
    path[0] = 12;
    path[2] = (path[1] - ENTRIES) % ENTRIES;
    path[1] = (path[1] - ENTRIES) / ENTRIES;
    return 3;
}

/* The block that holds block k of a file, or 0. What is missing on the way is made, as far as blocks are
 * free, where `is_making`. */
static uint32_t block_of(uint8_t *image, uint32_t inum, uint32_t k, int is_making) {
    uint32_t path[3], block = 0;
    unsigned count = path_to(form_of(image), k, path);
    size_t from = inode_at(inum) + 12;
    for (unsigned depth = 0; depth < count; depth++) {
        uint8_t *pointer = image + from + 4 * path[depth];
        if (number_at(pointer) == 0 && is_making) put_number(pointer, take_block(image));
        block = number_at(pointer);
        if (block == 0) return 0;
        from = place_of(block);
    }
    return block;
}

static void free_tree(uint8_t *image, uint32_t block, unsigned depth) {
    if (block == 0) return;
    for (uint32_t k = 0; depth > 0 && k < ENTRIES; k++)
        free_tree(image, number_at(image + place_of(block) + 4 * k), depth - 1);
    flip_bit(image, block);
}

static void empty(uint8_t *image, uint32_t inum) {
    uint8_t *inode = image + inode_at(inum);
    for (uint32_t k = 0; k < POINTERS; k++)
        free_tree(image, number_at(inode + 12 + 4 * k), depth_of(form_of(image), k));
    memset(inode + 8, 0, 4 + 4 * POINTERS);
}

static int is_file(const uint8_t *image, uint32_t inum) {
    return inum >= 1 && inum < inodes_of(image) && half_at(image + inode_at(inum)) != 0;
}

static xvfs_reply create(uint8_t *image, uint32_t type, uint32_t *value) {
    if (type < 1 || type > 3) return XVFS_REPLY_BAD_TYPE;
    for (uint32_t inum = 1; inum < inodes_of(image); inum++) {
        if (is_file(image, inum)) continue;
        memset(image + inode_at(inum), 0, 64);
        put_half(image + inode_at(inum), type);
        put_half(image + inode_at(inum) + 6, 1);
        *value = inum;
        return XVFS_REPLY_MADE;
    }
    return XVFS_REPLY_NO_INODE;
}

/* The part of `count` bytes from an offset on that one block has. */
static uint32_t part_of(uint32_t offset, uint32_t count) {
    return count < BLOCK - offset % BLOCK ? count : BLOCK - offset % BLOCK;
}

static xvfs_reply write(uint8_t *image, const xvfs_op *op, const uint8_t *bytes, size_t len,
                        uint32_t *value) {
    uint8_t *inode = image + inode_at(op->inum);
    uint32_t size = number_at(inode + 8), done = 0;
    if (op->offset > size) return XVFS_REPLY_BAD_OFFSET;
    if ((uint64_t)op->offset + len > greatest_size(form_of(image))) return XVFS_REPLY_TOO_BIG;
    while (done < len) {
        uint32_t offset = op->offset + done, part = part_of(offset, (uint32_t)len - done);
        uint32_t block = block_of(image, op->inum, offset / BLOCK, 1);
        if (block == 0) break;
        memcpy(image + place_of(block) + offset % BLOCK, bytes + done, part);
        done += part;
    }
    if (op->offset + done > size) put_number(inode + 8, op->offset + done);
    *value = done;
    return XVFS_REPLY_WROTE;
}

static xvfs_reply read(uint8_t *image, const xvfs_op *op, uint8_t *into, uint32_t *count) {
    uint32_t size = number_at(image + inode_at(op->inum) + 8);
    uint32_t left = op->offset < size ? size - op->offset : 0, part;
    if (left > op->len) left = op->len;
    for (*count = 0; *count < left; *count += part) {
        uint32_t offset = op->offset + *count;
        const uint8_t *from = image + place_of(block_of(image, op->inum, offset / BLOCK, 0));
        part = part_of(offset, left - *count);
        memcpy(into + *count, from + offset % BLOCK, part);
    }
    return XVFS_REPLY_BYTES;
}

/* A longer length writes zeroes behind the file's end. */
static xvfs_reply resize(uint8_t *image, const xvfs_op *op, uint32_t *value) {
    static const uint8_t zeroes[XVFS_TRANSFER];
    uint8_t *size = image + inode_at(op->inum) + 8;
    uint32_t old = number_at(size);
    if (op->len > old) {
        xvfs_op more = {XVFS_OP_WRITE, op->inum, old, 0};
        if (op->len - old > XVFS_TRANSFER) return XVFS_REPLY_TOO_LONG;
        return write(image, &more, zeroes, op->len - old, value);
    }
    put_number(size, op->len);
    return XVFS_REPLY_DONE;
}

static xvfs_reply stat(const uint8_t *image, uint32_t inum, xvfs_answer *out) {
    const uint8_t *inode = image + inode_at(inum);
    out->value = half_at(inode);
    out->links = half_at(inode + 6);
    out->size = number_at(inode + 8);
    return XVFS_REPLY_STAT;
}

static xvfs_reply reply_of(uint8_t *image, const xvfs_op *op, const uint8_t *bytes, size_t len,
                           xvfs_answer *out, uint8_t *into) {
    if (op->kind == XVFS_OP_CREATE) return create(image, op->inum, &out->value);
    if (op->kind == XVFS_OP_WRITE && len > XVFS_TRANSFER) return XVFS_REPLY_TOO_LONG;
    if (op->kind == XVFS_OP_READ && op->len > XVFS_TRANSFER) return XVFS_REPLY_TOO_LONG;
    if (!is_file(image, op->inum)) return XVFS_REPLY_NO_FILE;
    switch (op->kind) {
    case XVFS_OP_WRITE: return write(image, op, bytes, len, &out->value);
    case XVFS_OP_READ: return read(image, op, into, &out->len);
    case XVFS_OP_STAT: return stat(image, op->inum, out);
    case XVFS_OP_RESIZE: return resize(image, op, &out->value);
    case XVFS_OP_LINKS: put_half(image + inode_at(op->inum) + 6, op->len); break;
    case XVFS_OP_REMOVE: put_half(image + inode_at(op->inum), 0); /* fall through */
    default: empty(image, op->inum);
    }
    return XVFS_REPLY_DONE;
}

void second_call(uint8_t *image, const xvfs_op *op, const uint8_t *bytes, size_t len, xvfs_answer *out,
                 uint8_t *into) {
    memset(out, 0, sizeof *out);
    out->reply = reply_of(image, op, bytes, len, out, into);
}
