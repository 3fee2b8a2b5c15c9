/*
 * Drivers for a PC: the serial line COM1 and the first IDE disk, both without interrupts, and the six
 * functions that libxvfs.a asks for.
 */
#include "machine.h"

#include <stddef.h>

static inline void out(uint16_t port, uint8_t value) {
    __asm__ volatile("outb %0, %1" : : "a"(value), "Nd"(port));
}

static inline uint8_t in(uint16_t port) {
    uint8_t value;
    __asm__ volatile("inb %1, %0" : "=a"(value) : "Nd"(port));
    return value;
}

/* Memory. */

void *memcpy(void *to, const void *from, size_t count) {
    void *result = to;
    __asm__ volatile("rep movsb" : "+D"(to), "+S"(from), "+c"(count) : : "memory");
    return result;
}

void *memmove(void *to, const void *from, size_t count) {
    uint8_t *last = (uint8_t *)to + count;
    const uint8_t *source = (const uint8_t *)from + count;
    if ((uintptr_t)to - (uintptr_t)from >= count) return memcpy(to, from, count);
    while (count--) *--last = *--source;
    return to;
}

void *memset(void *to, int value, size_t count) {
    void *result = to;
    __asm__ volatile("rep stosb" : "+D"(to), "+c"(count) : "a"(value) : "memory");
    return result;
}

/* The heap: chunks, each behind a head of 16 bytes, of which the first that is large enough is taken. */

#define HEAP (1u << 20)

struct chunk {
    size_t size; /* behind the head */
    size_t is_taken;
};

static uint8_t heap[HEAP] __attribute__((aligned(16)));
static uint64_t taken, most;

static struct chunk *behind(struct chunk *chunk) {
    return (struct chunk *)((uint8_t *)(chunk + 1) + chunk->size);
}

static int is_chunk(const struct chunk *chunk) { return (const uint8_t *)chunk < heap + HEAP; }

uint64_t most_of_heap(void) { return most; }

/* Joins a free chunk with the free ones behind it. */
static void join(struct chunk *chunk) {
    struct chunk *next = behind(chunk);
    for (; is_chunk(next) && !next->is_taken; next = behind(chunk)) chunk->size += sizeof *next + next->size;
}

/* Leaves so many bytes in a chunk, and makes one of the rest, where that is worth it. */
static void split(struct chunk *chunk, size_t size) {
    struct chunk *rest;
    if (chunk->size < size + 4 * sizeof *rest) return;
    rest = (struct chunk *)((uint8_t *)(chunk + 1) + size);
    rest->size = chunk->size - size - sizeof *rest;
    rest->is_taken = 0;
    chunk->size = size;
}

void *malloc(size_t size) {
    struct chunk *chunk = (struct chunk *)heap;
    if (size > HEAP) return NULL;
    size = size ? (size + 15) / 16 * 16 : 16;
    if (chunk->size == 0) chunk->size = HEAP - sizeof *chunk;
    for (; is_chunk(chunk); chunk = behind(chunk)) {
        if (chunk->is_taken) continue;
        join(chunk);
        if (chunk->size < size) continue;
        split(chunk, size);
        chunk->is_taken = 1;
        taken += chunk->size;
        if (taken > most) most = taken;
        return chunk + 1;
    }
    return NULL;
}

void free(void *memory) {
    struct chunk *chunk = (struct chunk *)memory - 1;
    if (!memory) return;
    chunk->is_taken = 0;
    taken -= chunk->size;
}

void *realloc(void *memory, size_t size) {
    struct chunk *chunk = (struct chunk *)memory - 1;
    void *larger;
    if (memory && chunk->size >= size) return memory;
    larger = malloc(size);
    if (!larger || !memory) return larger;
    memcpy(larger, memory, chunk->size);
    free(memory);
    return larger;
}

/* The serial line. */

#define SERIAL 0x3F8u

static void print_byte(char byte) {
    while (!(in(SERIAL + 5) & 0x20)) {}
    out(SERIAL, (uint8_t)byte);
}

void print(const char *text) {
    for (; *text; text++) print_byte(*text);
}

void print_number(uint64_t number) {
    char digits[20];
    int count = 0;
    do digits[count++] = (char)('0' + number % 10);
    while (number /= 10);
    while (count) print_byte(digits[--count]);
}

_Noreturn void halt(const char *why, uint64_t number) {
    print("halt ");
    print(why);
    print(" ");
    print_number(number);
    print("\n");
    for (;;) __asm__ volatile("hlt");
}

/* The disk: commands of the ATA standard, by addresses of 28 bits. */

#define IDE 0x1F0u
#define SECTORS (XVFS_BLOCK_SIZE / 512)
enum { READ = 0x20, WRITE = 0x30, FLUSH = 0xE7 };
enum { FAILED = 0x21, HAS_DATA = 0x08, BUSY = 0x80 };

/* Waits until the disk is ready, and has data where they are wanted. Whether it failed. */
static int wait(uint8_t wanted) {
    uint8_t status;
    do status = in(IDE + 7);
    while (status & BUSY || (!(status & FAILED) && (status & wanted) != wanted));
    return status & FAILED;
}

static int command(uint32_t sector, uint8_t count, uint8_t what) {
    if (wait(0)) return 1;
    out(IDE + 6, (uint8_t)(0xE0 | sector >> 24));
    out(IDE + 2, count);
    out(IDE + 3, (uint8_t)sector);
    out(IDE + 4, (uint8_t)(sector >> 8));
    out(IDE + 5, (uint8_t)(sector >> 16));
    out(IDE + 7, what);
    return 0;
}

static int read_block(void *context, uint32_t block, uint8_t *bytes) {
    int sector;
    (void)context;
    if (command(block * SECTORS, SECTORS, READ)) return 1;
    for (sector = 0; sector < (int)SECTORS; sector++) {
        size_t words = 256;
        if (wait(HAS_DATA)) return 1;
        __asm__ volatile("rep insw" : "+D"(bytes), "+c"(words) : "d"((uint16_t)IDE) : "memory");
    }
    return 0;
}

static int write_block(void *context, uint32_t block, const uint8_t *bytes) {
    int sector;
    (void)context;
    if (command(block * SECTORS, SECTORS, WRITE)) return 1;
    for (sector = 0; sector < (int)SECTORS; sector++) {
        size_t words = 256;
        if (wait(HAS_DATA)) return 1;
        __asm__ volatile("rep outsw" : "+S"(bytes), "+c"(words) : "d"((uint16_t)IDE) : "memory");
    }
    return wait(0);
}

static int sync_disk(void *context) {
    (void)context;
    return command(0, 0, FLUSH) || wait(0);
}

const xvfs_device disk = {NULL, read_block, write_block, sync_disk};
