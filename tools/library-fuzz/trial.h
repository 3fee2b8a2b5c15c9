/*
 * What the trials share: random numbers, calls for memory that are refused, and memory beside pages that
 * can't be read. A program with it is linked with --wrap=malloc, --wrap=realloc and --wrap=free, and takes
 * no memory itself, so that each call of these is the library's.
 */
#ifndef TRIAL_H
#define TRIAL_H

#include "xvfs.h"

/* Ends the program where something isn't so. */
#define MUST(is_so) ((is_so) ? (void)0 : trial_fail(__FILE__, __LINE__, #is_so))
_Noreturn void trial_fail(const char *file, int line, const char *what);

/* Random numbers, the same for the same seed. */
void start_numbers(uint64_t seed);
uint32_t below(uint32_t bound);
int one_in(uint32_t bound);

/* Calls for memory. */
extern struct memory {
    unsigned long asked, refused;
    unsigned long refuse_at; /* this one of those asked is refused; 0: none */
    unsigned refuse_one_in;  /* 0: none */
    long blocks;             /* that are taken and not given back */
} memory;

/* Makes a call again while it is refused memory. */
#define REPEAT(result, call) \
    do result = (call); while (is_of_memory(result))
int is_of_memory(xvfs_result result);

/* Memory that ends where a page begins that can't be read. */
struct guarded {
    uint8_t *end;
    size_t room;
};
void guard(struct guarded *it, size_t room);

/* Lays bytes at the end of guarded memory, which can't be written from now on. */
const void *lay(struct guarded *it, const void *bytes, size_t count);

/* The last bytes of guarded memory, to be written by a call: whether those from a place on, and some
 * before the first, are as `blank` laid them. */
void *blank(struct guarded *it, size_t count);
int is_blank(const struct guarded *it, size_t count, size_t from);

#endif
