/* trial.h: numbers, memory that is refused, and memory that is guarded. */
#define _GNU_SOURCE
#include "trial.h"

#include <stdio.h>
#include <stdlib.h>
#include <string.h>
#include <sys/mman.h>

#define PAGE 4096u
#define BEFORE 64u  /* bytes that are looked at before the first */
#define BLANK 0xa5

static uint64_t state, started;

_Noreturn void trial_fail(const char *file, int line, const char *what) {
    const char *name = strrchr(file, '/');
    fprintf(stderr, "%s:%d: seed %llu: not so: %s\n", name ? name + 1 : file, line,
            (unsigned long long)started, what);
    exit(1);
}

void start_numbers(uint64_t seed) {
    started = seed;
    state = seed * 0x9e3779b97f4a7c15u + 88172645463325252u;
    below(2);
}

uint32_t below(uint32_t bound) {
    state ^= state << 13;
    state ^= state >> 7;
    state ^= state << 17;
    return (uint32_t)(state >> 33) % bound;
}

int one_in(uint32_t bound) { return below(bound) == 0; }

struct memory memory;

void *__real_malloc(size_t size);
void *__real_realloc(void *old, size_t size);
void __real_free(void *old);
void *__wrap_malloc(size_t size);
void *__wrap_realloc(void *old, size_t size);
void __wrap_free(void *old);

/* Its own numbers: a refusal changes none of the trial's. */
static int is_refused(void) {
    static uint64_t refusing = 1;
    memory.asked += 1;
    refusing = refusing * 6364136223846793005u + 1442695040888963407u;
    int is_due = memory.refuse_one_in && (refusing >> 33) % memory.refuse_one_in == 0;
    if (memory.asked != memory.refuse_at && !is_due) return 0;
    memory.refused += 1;
    return 1;
}

void *__wrap_malloc(size_t size) {
    void *made = is_refused() ? NULL : __real_malloc(size);
    memory.blocks += made != NULL;
    return made;
}

void *__wrap_realloc(void *old, size_t size) {
    void *made = is_refused() ? NULL : __real_realloc(old, size);
    memory.blocks += made != NULL && old == NULL;
    return made;
}

void __wrap_free(void *old) {
    memory.blocks -= old != NULL;
    __real_free(old);
}

int is_of_memory(xvfs_result result) {
    return result == XVFS_E_MKFS_MEMORY || result == XVFS_E_CHECK_MEMORY ||
           result == XVFS_E_RECOVER_MEMORY || result == XVFS_E_OPEN_MEMORY ||
           result == XVFS_E_SUBMIT_MEMORY;
}

void guard(struct guarded *it, size_t room) {
    size_t pages = (room + BEFORE + PAGE - 1) / PAGE * PAGE;
    uint8_t *from = mmap(NULL, pages + 2 * PAGE, PROT_NONE, MAP_PRIVATE | MAP_ANONYMOUS, -1, 0);
    MUST(from != MAP_FAILED);
    MUST(mprotect(from + PAGE, pages, PROT_READ | PROT_WRITE) == 0);
    it->end = from + PAGE + pages;
    it->room = pages;
}

static void protect(const struct guarded *it, int protection) {
    MUST(mprotect(it->end - it->room, it->room, protection) == 0);
}

const void *lay(struct guarded *it, const void *bytes, size_t count) {
    MUST(count <= it->room);
    protect(it, PROT_READ | PROT_WRITE);
    if (count) memcpy(it->end - count, bytes, count);
    protect(it, PROT_READ);
    return it->end - count;
}

void *blank(struct guarded *it, size_t count) {
    MUST(count + BEFORE <= it->room);
    memset(it->end - count - BEFORE, BLANK, count + BEFORE);
    return it->end - count;
}

int is_blank(const struct guarded *it, size_t count, size_t from) {
    const uint8_t *bytes = it->end - count;
    for (size_t k = 1; k <= BEFORE; k++)
        if (bytes[-(ptrdiff_t)k] != BLANK) return 0;
    for (size_t k = from; k < count; k++)
        if (bytes[k] != BLANK) return 0;
    return 1;
}
