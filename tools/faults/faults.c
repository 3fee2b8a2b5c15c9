// Two programs in one file. As a library that is loaded beside a program, it makes one of the calls on
// one file fail, do less than it should, or end the process; and it notes what each write replaces, until
// the file is synced. As a program of its own (with -DCUT) it cuts the power: of each block that was
// written since the last sync it leaves what was written last or what stood there at some moment since.
//
// FAULTS_FILE is the path as the program opens it. FAULTS_CALL is `write`, `lseek`, `read`, `fdatasync`
// or `ftruncate`, FAULTS_AT which of these calls, from 1, and FAULTS_HOW `eio`, `enospc` (this one and
// each later one), `zero`, `short`, `eintr`, `kill` or `pause` (it is made later, once the file at
// FAULTS_UNTIL is there). FAULTS_LOG is the file of notes.
#define _GNU_SOURCE
#include <dlfcn.h>
#include <errno.h>
#include <fcntl.h>
#include <signal.h>
#include <stdarg.h>
#include <stdint.h>
#include <stdio.h>
#include <stdlib.h>
#include <string.h>
#include <sys/types.h>
#include <unistd.h>

// What a write replaced, as it stands in the notes: the bytes follow.
struct note {
    int64_t place;
    int64_t length;
};

#ifndef CUT

static char watched[1024];
static long count;

static void *next(const char *name) {
    void *call = dlsym(RTLD_NEXT, name);
    if (call == NULL)
        _exit(99);
    return call;
}

static void watch(int fd, const char *path) {
    const char *file = getenv("FAULTS_FILE");
    if (fd >= 0 && fd < (int)sizeof watched)
        watched[fd] = file != NULL && strcmp(path, file) == 0;
}

static int is_watched(int fd) {
    return fd >= 0 && fd < (int)sizeof watched && watched[fd];
}

// How this call is to go: NULL where as usual.
static const char *fate(const char *name) {
    const char *call = getenv("FAULTS_CALL"), *at = getenv("FAULTS_AT"), *how = getenv("FAULTS_HOW");
    if (call == NULL || at == NULL || how == NULL || strcmp(call, name) != 0)
        return NULL;
    count++;
    if (count == atol(at) || (count > atol(at) && strcmp(how, "enospc") == 0)) {
        if (strcmp(how, "kill") == 0)
            kill(getpid(), SIGKILL);
        if (strcmp(how, "pause") != 0)
            return how;
        for (int n = 0; n < 10000 && access(getenv("FAULTS_UNTIL"), F_OK) != 0; n++)
            usleep(1000);
    }
    return NULL;
}

static int64_t fail(const char *how) {
    errno = strcmp(how, "enospc") == 0 ? ENOSPC : strcmp(how, "eintr") == 0 ? EINTR : EIO;
    return -1;
}

static int open_as(int fd, const char *path) {
    watch(fd, path);
    return fd;
}

int open(const char *path, int flags, ...) {
    va_list more;
    va_start(more, flags);
    mode_t mode = va_arg(more, mode_t);
    va_end(more);
    return open_as(((int (*)(const char *, int, ...))next("open"))(path, flags, mode), path);
}

int open64(const char *path, int flags, ...) {
    va_list more;
    va_start(more, flags);
    mode_t mode = va_arg(more, mode_t);
    va_end(more);
    return open_as(((int (*)(const char *, int, ...))next("open64"))(path, flags, mode), path);
}

int openat(int folder, const char *path, int flags, ...) {
    va_list more;
    va_start(more, flags);
    mode_t mode = va_arg(more, mode_t);
    va_end(more);
    return open_as(((int (*)(int, const char *, int, ...))next("openat"))(folder, path, flags, mode), path);
}

// Another handle of a file is watched as that is.
static int copied(const char *name, int fd, int call, void *more) {
    int made = ((int (*)(int, int, void *))next(name))(fd, call, more);
    if ((call == F_DUPFD || call == F_DUPFD_CLOEXEC) && made >= 0 && made < (int)sizeof watched)
        watched[made] = is_watched(fd);
    return made;
}

int fcntl(int fd, int call, ...) {
    va_list more;
    va_start(more, call);
    void *argument = va_arg(more, void *);
    va_end(more);
    return copied("fcntl", fd, call, argument);
}

int fcntl64(int fd, int call, ...) {
    va_list more;
    va_start(more, call);
    void *argument = va_arg(more, void *);
    va_end(more);
    return copied("fcntl64", fd, call, argument);
}

int close(int fd) {
    if (fd >= 0 && fd < (int)sizeof watched)
        watched[fd] = 0;
    return ((int (*)(int))next("close"))(fd);
}

// Notes what stands where a write goes.
static void note_replaced(int fd, size_t length) {
    const char *path = getenv("FAULTS_LOG");
    if (path == NULL)
        return;
    off_t place = ((off_t(*)(int, off_t, int))next("lseek"))(fd, 0, SEEK_CUR);
    char *old = calloc(1, length);
    if (old == NULL || pread(fd, old, length, place) < 0)
        _exit(98);
    int log = ((int (*)(const char *, int, ...))next("open"))(path, O_WRONLY | O_CREAT | O_APPEND, 0600);
    struct note note = {place, (int64_t)length};
    ssize_t (*put)(int, const void *, size_t) = next("write");
    if (put(log, &note, sizeof note) < 0 || put(log, old, length) < 0)
        _exit(98);
    ((int (*)(int))next("close"))(log);
    free(old);
}

ssize_t write(int fd, const void *bytes, size_t length) {
    ssize_t (*put)(int, const void *, size_t) = next("write");
    if (!is_watched(fd))
        return put(fd, bytes, length);
    const char *how = fate("write");
    if (how != NULL && strcmp(how, "zero") == 0)
        return 0;
    if (how != NULL && strcmp(how, "short") != 0)
        return fail(how);
    note_replaced(fd, length);
    return put(fd, bytes, how == NULL ? length : length / 2);
}

ssize_t read(int fd, void *bytes, size_t length) {
    ssize_t (*get)(int, void *, size_t) = next("read");
    const char *how = is_watched(fd) ? fate("read") : NULL;
    if (how != NULL && strcmp(how, "zero") == 0)
        return 0;
    if (how != NULL && strcmp(how, "short") != 0)
        return fail(how);
    return get(fd, bytes, how == NULL ? length : length / 2);
}

off_t lseek(int fd, off_t place, int whence) {
    const char *how = is_watched(fd) ? fate("lseek") : NULL;
    return how != NULL ? fail(how) : ((off_t(*)(int, off_t, int))next("lseek"))(fd, place, whence);
}

off_t lseek64(int fd, off_t place, int whence) {
    return lseek(fd, place, whence);
}

static int sync_as(int fd, const char *name) {
    const char *how = is_watched(fd) ? fate("fdatasync") : NULL;
    if (how != NULL)
        return fail(how);
    const char *log = getenv("FAULTS_LOG");
    if (is_watched(fd) && log != NULL)
        unlink(log);
    return ((int (*)(int))next(name))(fd);
}

int fdatasync(int fd) {
    return sync_as(fd, "fdatasync");
}

int fsync(int fd) {
    return sync_as(fd, "fsync");
}

static int cut_to(int fd, off_t length, const char *name) {
    const char *how = is_watched(fd) ? fate("ftruncate") : NULL;
    return how != NULL ? fail(how) : ((int (*)(int, off_t))next(name))(fd, length);
}

int ftruncate(int fd, off_t length) {
    return cut_to(fd, length, "ftruncate");
}

int ftruncate64(int fd, off_t length) {
    return cut_to(fd, length, "ftruncate64");
}

#else

// cut IMAGE NOTES SEED
int main(int argc, char **argv) {
    static unsigned char now[1 << 16];
    FILE *notes = argc == 4 ? fopen(argv[2], "rb") : NULL;
    if (argc != 4)
        return 2;
    if (notes == NULL)
        return errno == ENOENT ? 0 : 2;
    int image = open(argv[1], O_RDWR);
    srand48(atol(argv[3]));
    struct note note;
    // Of the versions of a block each is as likely: what a later note replaced takes the place of what
    // was chosen before with a chance of one in as many as there are.
    static int versions[1 << 14];
    static unsigned char *chosen[1 << 14];
    while (fread(&note, sizeof note, 1, notes) == 1) {
        if (note.length > (int64_t)sizeof now || fread(now, note.length, 1, notes) != 1)
            return 2;
        int64_t block = note.place / 1024;
        if (note.length != 1024 || note.place % 1024 != 0 || block >= 1 << 14)
            return 3;
        if (lrand48() % ++versions[block] == 0) {
            if (chosen[block] == NULL)
                chosen[block] = malloc(1024);
            memcpy(chosen[block], now, 1024);
        }
    }
    for (int block = 0; block < 1 << 14; block++)
        if (versions[block] > 0 && lrand48() % (versions[block] + 1) != 0
            && pwrite(image, chosen[block], 1024, (off_t)block * 1024) != 1024)
            return 2;
    return close(image);
}

#endif
