/* Refuses the Nth allocation of a program, of all its threads together, N being the number in
   REFUSE_ALLOCATION, or each from the Nth on, N being that in REFUSE_FROM, and adds a byte to the file COUNT_ALLOCATIONS for each; preloaded by the script `run`
   beside it. Allocations made before the program's main count as well. What is not refused goes to the C
   library's own functions, by the names that it gives them beside the usual ones. */
#include <errno.h>
#include <fcntl.h>
#include <stdatomic.h>
#include <stddef.h>
#include <stdlib.h>
#include <unistd.h>

void *__libc_malloc(size_t size);
void *__libc_calloc(size_t count, size_t size);
void *__libc_realloc(void *old, size_t size);
void *__libc_memalign(size_t alignment, size_t size);

static atomic_long made;

static void tell(const char *path) {
    int file = open(path, O_WRONLY | O_CREAT | O_APPEND, 0600);
    if (file < 0 || write(file, "+", 1) != 1) abort();
    close(file);
}

static int is_refused(void) {
    const char *path = getenv("COUNT_ALLOCATIONS"), *number = getenv("REFUSE_ALLOCATION");
    const char *first = getenv("REFUSE_FROM");
    long nth = atomic_fetch_add(&made, 1) + 1;
    if (path) tell(path);
    if (!(number && nth == atol(number)) && !(first && nth >= atol(first))) return 0;
    errno = ENOMEM;
    return 1;
}

void *malloc(size_t size) { return is_refused() ? NULL : __libc_malloc(size); }

void *calloc(size_t count, size_t size) { return is_refused() ? NULL : __libc_calloc(count, size); }

void *realloc(void *old, size_t size) { return is_refused() ? NULL : __libc_realloc(old, size); }

void *aligned_alloc(size_t alignment, size_t size) {
    return is_refused() ? NULL : __libc_memalign(alignment, size);
}

int posix_memalign(void **result, size_t alignment, size_t size) {
    if (is_refused()) return ENOMEM;
    *result = __libc_memalign(alignment, size);
    return *result ? 0 : ENOMEM;
}
