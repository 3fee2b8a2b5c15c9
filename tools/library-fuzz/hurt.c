/*
 * Hurt images: xvfs_check, xvfs_recover, xvfs_recover_step and xvfs_open answer what the second
 * implementation finds, the first fault and where it is, or recover to the same image. Each image is in
 * memory that can't be written, before a page that can't be read. On a refusal no output is touched, and
 * no place of a recovery tells a block outside the image, be that as hurt as it may.
 *
 * usage: hurt SEED IMAGES
 */
#include <stdio.h>
#include <stdlib.h>
#include <string.h>

#include "second.h"
#include "trial.h"

#define MOST_BLOCKS 245u
#define ALL (MOST_BLOCKS * XVFS_BLOCK_SIZE)
#define LOGGED 30u
#define PLACES 40u  /* of a recovery, and some behind its end */
#define KINDS (XVFS_NUMBER(XVFS_E_LOST_BLOCK) + 1)

static uint8_t image[ALL], recovered[ALL], bytes[XVFS_TRANSFER];
static size_t len;
static struct guarded given, whole, block, out;
static xvfs_result fault; /* that the second implementation finds */
static unsigned long outcomes[KINDS];

static uint8_t *at(uint8_t *of, uint32_t number) { return of + (size_t)number * XVFS_BLOCK_SIZE; }

static void put(size_t place, uint32_t number) {
    for (unsigned k = 0; k < 4; k++) image[place + k] = (uint8_t)(number >> 8 * k);
}

static uint32_t get(size_t place) {
    return image[place] | (uint32_t)image[place + 1] << 8 | (uint32_t)image[place + 2] << 16 |
           (uint32_t)image[place + 3] << 24;
}

/* Making images. */

static void change(uint8_t *of) {
    xvfs_op op = {one_in(6) ? XVFS_OP_REMOVE : XVFS_OP_WRITE, 1 + below(4), 0, 0};
    xvfs_answer answer;
    if (one_in(3)) op = (xvfs_op){XVFS_OP_CREATE, 1 + below(3), 0, 0};
    if (op.kind == XVFS_OP_WRITE) {
        xvfs_op stat = {XVFS_OP_STAT, op.inum, 0, 0};
        second_call(of, &stat, bytes, 0, &answer, bytes);
        op.offset = one_in(3) ? 0 : answer.size;
    }
    memset(bytes, 1 + (int)below(255), sizeof bytes);
    second_call(of, &op, bytes, 1 + below(XVFS_TRANSFER), &answer, bytes);
}

/* Logs what a change makes of the image: the device of a host that was stopped behind the header. */
static void log_change(void) {
    uint32_t count = 0;
    memcpy(recovered, image, len);
    change(recovered);
    for (uint32_t b = 33; b < len / XVFS_BLOCK_SIZE && count < LOGGED; b++) {
        if (memcmp(at(image, b), at(recovered, b), XVFS_BLOCK_SIZE) == 0) continue;
        memcpy(at(image, 3 + count), at(recovered, b), XVFS_BLOCK_SIZE);
        put(2052 + 4 * count++, b);
    }
    put(2048, count);
}

static void make(void) {
    uint32_t blocks = 45 + below(MOST_BLOCKS - 44);
    len = blocks * XVFS_BLOCK_SIZE;
    MUST(second_mkfs(image, len, 2 + below(40), 1 + below(2)) == XVFS_OK);
    for (unsigned k = below(40); k > 0; k--) change(image);
    if (one_in(2)) log_change();
}

/* Hurting them. */

/* A number that means something somewhere. */
static uint32_t number_near(void) {
    static const uint32_t numbers[] = {0,      1,      2,      3,          4,          30,         31,
                                       32,     33,     34,     36,         255,        256,        268,
                                       274432, 274433, 273408, 67382272,   67382273,   8191,       8192,
                                       65535,  65536,  0x7fffffff, 0x80000000, 0xffffffff, 0x10203040,
                                       0x10203041};
    if (one_in(2)) return numbers[below(sizeof numbers / sizeof *numbers)];
    return below((uint32_t)(len / XVFS_BLOCK_SIZE) + 3);
}

/* A pointer of an inode, or an entry of a block of addresses, becomes another block. */
static void hurt_pointer(void) {
    size_t inode = 33 * XVFS_BLOCK_SIZE + 64 * (1 + below(4));
    uint32_t pointer = one_in(2) ? below(13) : below(4), address = get(inode + 12 + 4 * pointer);
    uint32_t blocks = (uint32_t)(len / XVFS_BLOCK_SIZE);
    size_t place = inode + 12 + 4 * pointer;
    if (pointer >= 11 && address >= 33 && address < blocks && one_in(2))
        place = address * XVFS_BLOCK_SIZE + 4 * below(one_in(2) ? 256 : 8);
    put(place, one_in(4) ? number_near() : 33 + below(blocks - 30));
}

static void hurt(void) {
    uint32_t bitmap = get(1024 + 28);
    switch (below(8)) {
    case 0: put(1024 + 4 * below(9), number_near()); break;
    case 1: put(2048 + 4 * below(33), number_near()); break;
    case 2: put(33 * XVFS_BLOCK_SIZE + 64 * below(6) + 8 * below(2), number_near()); break;
    case 3: put(below((uint32_t)len / 4) * 4, number_near()); break;
    case 4: put(33 * XVFS_BLOCK_SIZE + 64 * (1 + below(4)) + 8, number_near()); break;
    case 5:
        if (bitmap < len / XVFS_BLOCK_SIZE) at(image, bitmap)[below(32)] ^= (uint8_t)(1u << below(8));
        break;
    default: hurt_pointer();
    }
}

/* What the calls say. */

static xvfs_result check(const uint8_t *from, const xvfs_report *wanted) {
    xvfs_report *report = blank(&out, sizeof *report);
    xvfs_result result = xvfs_check(from, len, report);
    size_t written = result ? offsetof(xvfs_report, form) : offsetof(xvfs_report, reserved);
    MUST(result == wanted->fault && memcmp(report, wanted, written) == 0);
    MUST(is_blank(&out, sizeof *report, written));
    return result;
}

static void open_over(const uint8_t *from, uint32_t logged) {
    xvfs fs = XVFS_CLOSED_HANDLE;
    xvfs_result wanted = fault == XVFS_OK && logged ? XVFS_E_LOGGED : fault;
    MUST(xvfs_open(&fs, from, len, 1 + below(XVFS_PROCESSES), below(2)) == wanted);
    MUST((fs.session != NULL) == (wanted == XVFS_OK));
    xvfs_end(&fs);
}

/* Recovery in memory, to the image that the second implementation makes, or to none. */
static void recover(uint32_t logged) {
    uint8_t *mine = blank(&whole, len);
    uint32_t count = 77;
    memcpy(mine, image, len);
    memcpy(recovered, image, len);
    MUST(xvfs_recover(mine, len, &count) == fault);
    if (!fault) MUST(second_recover(recovered) == logged);
    MUST(count == (fault ? 77 : logged));
    MUST(memcmp(mine, recovered, len) == 0 && is_blank(&whole, len, len));
}

/* Makes one place of a recovery: whether it told something. The block is untouched where none is told. */
static int recover_at(const uint8_t *from, uint32_t place, uint8_t *onto) {
    xvfs_told *told = blank(&out, sizeof *told);
    uint8_t *told_bytes = blank(&block, XVFS_BLOCK_SIZE);
    xvfs_result result = xvfs_recover_step(from, len, place, told, told_bytes, XVFS_BLOCK_SIZE);
    int is_told = result == XVFS_OK && told->wrote;
    MUST(is_blank(&out, sizeof *told, result ? 0 : offsetof(xvfs_told, reserved)));
    MUST(is_blank(&block, XVFS_BLOCK_SIZE, is_told ? XVFS_BLOCK_SIZE : 0));
    if (result) {
        MUST(result == (place ? XVFS_E_RECOVER_LOG : fault));
        return 0;
    }
    if (is_told) {
        MUST(told->wrote == 1 && !told->synced && told->block < len / XVFS_BLOCK_SIZE);
        if (onto) memcpy(at(onto, told->block), told_bytes, XVFS_BLOCK_SIZE);
    }
    return is_told || told->synced;
}

/* Recovery as told, of which each stop recovers to the same image. */
static void recover_stepwise(const uint8_t *from, uint32_t logged) {
    static uint8_t device[ALL], stopped[ALL];
    uint32_t place = 0, count;
    memcpy(device, image, len);
    for (; recover_at(from, place, device); place++) {
        memcpy(stopped, device, len);
        MUST(xvfs_recover(stopped, len, &count) == XVFS_OK);
        MUST(memcmp(stopped, recovered, len) == 0);
    }
    MUST(place == (logged ? logged + 3 : 0) && memcmp(device, recovered, len) == 0);
    MUST(!recover_at(from, UINT32_MAX, NULL) && !recover_at(from, 1000, NULL));
}

static void see_image(uint64_t seed) {
    xvfs_report wanted;
    start_numbers(seed);
    make();
    for (unsigned k = below(4); k > 0; k--) hurt();
    memset(&wanted, 0, sizeof wanted);
    fault = second_check(image, len, &wanted);
    const uint8_t *from = lay(&given, image, len);
    outcomes[XVFS_NUMBER(check(from, &wanted))] += 1;
    open_over(from, wanted.logged);
    recover(wanted.logged);
    if (!fault) recover_stepwise(from, wanted.logged);
    else for (uint32_t place = 0; place < PLACES; place++) recover_at(from, place, NULL);
    MUST(memory.blocks == 0);
}

int main(int argc, char **argv) {
    if (argc != 3) return 2;
    uint64_t seed = strtoull(argv[1], NULL, 10);
    unsigned images = (unsigned)atoi(argv[2]);
    guard(&given, ALL);
    guard(&whole, ALL);
    guard(&block, XVFS_BLOCK_SIZE);
    guard(&out, sizeof(xvfs_report));
    for (unsigned k = 1; k <= images; k++) see_image(seed * 1000003 + k);
    for (unsigned k = 0; images >= 1000 && k < KINDS; k++) MUST(outcomes[k] > 0);
    printf("%u hurt images, %lu sound: faults, places and recovered images of the second implementation\n",
           images, outcomes[0]);
    return 0;
}
