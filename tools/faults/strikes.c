// A library that is loaded beside a program: it makes chosen calls on the files of one folder fail, end the
// process or wait, and notes what is called. faults.c strikes the calls that move bytes of one file; this one
// strikes also those that open, name, look at, lock and sync files.
//
// STRIKES_IN is the folder, whose files count, named from it or by their whole path. STRIKES has rules with
// spaces between, CALL[,CALL..][@NAME]:AT:HOW. A call is open, stat, rename, unlink, chmod, chown, lock, sync,
// syncdir, truncate, seek, read, write, close, link or path; `any` is each. NAME is the file's, without its
// folder. AT is which of these calls, from 1, with a `+` also each later one. HOW is an error's name (see
// `errors`), `kill`, `readonly` (an error where a file is opened to be written), or `pause=FILE`: the call
// waits until FILE is there, and FILE.reached tells that it does.
//
// STRIKES_LOG gets a line for each call: its name, the file's, and of an open its flags and mode.
// STRIKES_TRACE gets each write and sync of the file STRIKES_TRACED: struct event, then the bytes.
#define _GNU_SOURCE
#include <dlfcn.h>
#include <errno.h>
#include <fcntl.h>
#include <signal.h>
#include <stdarg.h>
#include <stdint.h>
#include <stdio.h>
#include <stdlib.h>
#include <string.h>
#include <sys/stat.h>
#include <sys/uio.h>
#include <unistd.h>

struct event {
    int64_t place; // -1 for a sync that came to its end, -2 for one that failed
    int64_t length;
};

struct rule {
    char calls[128];
    char name[300];
    char how[300];
    long at;
    int and_later;
    long count;
};

static const struct {
    const char *name;
    int number;
} errors[] = {{"eio", EIO}, {"enospc", ENOSPC}, {"eacces", EACCES}, {"eperm", EPERM}, {"enomem", ENOMEM},
    {"enolck", ENOLCK}, {"eopnotsupp", EOPNOTSUPP}, {"erofs", EROFS}, {"eintr", EINTR}};

static struct rule rules[8];
static int rule_count = -1;
static const char *folder, *log_path, *trace_path, *traced;

static void *next(const char *name) {
    void *call = dlsym(RTLD_NEXT, name);
    if (call == NULL)
        _exit(99);
    return call;
}

static void learn_rules(void) {
    folder = getenv("STRIKES_IN");
    log_path = getenv("STRIKES_LOG");
    trace_path = getenv("STRIKES_TRACE");
    traced = getenv("STRIKES_TRACED");
    const char *text = getenv("STRIKES");
    rule_count = 0;
    while (folder != NULL && text != NULL && *text != 0 && rule_count < 8) {
        struct rule *rule = &rules[rule_count];
        char what[428], at[32];
        int length = 0;
        if (sscanf(text, " %427[^: ]:%31[^: ]:%299[^ ]%n", what, at, rule->how, &length) != 3)
            _exit(97);
        char *name = strchr(what, '@');
        snprintf(rule->name, sizeof rule->name, "%s", name == NULL ? "" : name + 1);
        if (name != NULL)
            *name = 0;
        snprintf(rule->calls, sizeof rule->calls, "%.120s", what);
        rule->at = atol(at);
        rule->and_later = strchr(at, '+') != NULL;
        text += length;
        while (*text == ' ')
            text++;
        rule_count++;
    }
}

// The file's name without its folder, where it is one of the folder; else NULL.
static const char *name_in_folder(const char *path) {
    if (rule_count < 0)
        learn_rules();
    if (folder == NULL || path == NULL)
        return NULL;
    size_t length = strlen(folder);
    if (path[0] == '/' && (strncmp(path, folder, length) != 0 || (path[length] != '/' && path[length] != 0)))
        return NULL;
    const char *last = strrchr(path, '/');
    return last == NULL ? path : last + 1;
}

static const char *name_of_fd(int fd, char *room, size_t size) {
    char link[64];
    snprintf(link, sizeof link, "/proc/self/fd/%d", fd);
    ssize_t got = readlink(link, room, size - 1);
    if (got < 0)
        return NULL;
    room[got] = 0;
    return room[0] == '/' ? name_in_folder(room) : NULL;
}

static int is_one_of(const char *call, const char *calls) {
    size_t length = strlen(call);
    if (strcmp(calls, "any") == 0)
        return 1;
    for (const char *at = strstr(calls, call); at != NULL; at = strstr(at + 1, call))
        if ((at == calls || at[-1] == ',') && (at[length] == ',' || at[length] == 0))
            return 1;
    return 0;
}

static void append(const char *path, const void *bytes, size_t length) {
    int fd = ((int (*)(int, const char *, int, ...))next("openat"))(AT_FDCWD, path,
        O_WRONLY | O_CREAT | O_APPEND, 0600);
    if (fd < 0 || ((ssize_t(*)(int, const void *, size_t))next("write"))(fd, bytes, length) < 0)
        _exit(98);
    ((int (*)(int))next("close"))(fd);
}

static void wait_for(const char *file) {
    char reached[400];
    snprintf(reached, sizeof reached, "%s.reached", file);
    append(reached, "", 0);
    for (int n = 0; n < 20000 && access(file, F_OK) != 0; n++)
        usleep(500);
}

// Notes a call on a file of the folder. The error that it has to end with, or 0.
static int fate(const char *call, const char *name, const char *more, int opens_to_write) {
    int error = 0;
    if (name == NULL)
        return 0;
    if (log_path != NULL) {
        char line[700];
        int length = snprintf(line, sizeof line, "%s %.300s%s\n", call, name, more);
        append(log_path, line, (size_t)length);
    }
    for (int n = 0; n < rule_count; n++) {
        struct rule *rule = &rules[n];
        if (!is_one_of(call, rule->calls) || (rule->name[0] != 0 && strcmp(rule->name, name) != 0))
            continue;
        long count = __atomic_add_fetch(&rule->count, 1, __ATOMIC_SEQ_CST);
        if (count != rule->at && !(rule->and_later && count > rule->at))
            continue;
        if (strcmp(rule->how, "kill") == 0)
            kill(getpid(), SIGKILL);
        if (strncmp(rule->how, "pause=", 6) == 0)
            wait_for(rule->how + 6);
        if (strcmp(rule->how, "readonly") == 0 && opens_to_write)
            error = EROFS;
        for (size_t one = 0; one < sizeof errors / sizeof *errors; one++)
            if (strcmp(rule->how, errors[one].name) == 0)
                error = errors[one].number;
    }
    return error;
}

static int fate_of_fd(const char *call, int fd) {
    char room[5000];
    return fate(call, name_of_fd(fd, room, sizeof room), "", 0);
}

static int refuse(int error) {
    errno = error;
    return -1;
}

static int open_as(int at, const char *path, int flags, mode_t mode, const char *real) {
    char more[64];
    snprintf(more, sizeof more, " %o %o", (unsigned)flags, (unsigned)mode);
    int error = fate("open", name_in_folder(path), more, (flags & O_ACCMODE) != O_RDONLY);
    return error != 0 ? refuse(error) : ((int (*)(int, const char *, int, ...))next(real))(at, path, flags, mode);
}

#define MODE_OF(flags)                                                                                             \
    va_list more;                                                                                                  \
    va_start(more, flags);                                                                                         \
    mode_t mode = (flags) & (O_CREAT | O_TMPFILE) ? va_arg(more, mode_t) : 0;                                      \
    va_end(more)

int open(const char *path, int flags, ...) {
    MODE_OF(flags);
    return open_as(AT_FDCWD, path, flags, mode, "openat");
}

int open64(const char *path, int flags, ...) {
    MODE_OF(flags);
    return open_as(AT_FDCWD, path, flags, mode, "openat64");
}

int openat(int at, const char *path, int flags, ...) {
    MODE_OF(flags);
    return open_as(at, path, flags, mode, "openat");
}

int openat64(int at, const char *path, int flags, ...) {
    MODE_OF(flags);
    return open_as(at, path, flags, mode, "openat64");
}

int close(int fd) {
    // What a close answers is nobody's affair, but a process can end or wait before it.
    fate_of_fd("close", fd);
    return ((int (*)(int))next("close"))(fd);
}

int statx(int at, const char *path, int flags, unsigned mask, struct statx *out) {
    int error = path[0] == 0 ? fate_of_fd("stat", at) : fate("stat", name_in_folder(path), "", 0);
    if (error != 0)
        return refuse(error);
    return ((int (*)(int, const char *, int, unsigned, struct statx *))next("statx"))(at, path, flags, mask, out);
}

int stat(const char *path, struct stat *out) {
    int error = fate("stat", name_in_folder(path), "", 0);
    return error != 0 ? refuse(error) : ((int (*)(const char *, struct stat *))next("stat"))(path, out);
}

int lstat(const char *path, struct stat *out) {
    int error = fate("stat", name_in_folder(path), "", 0);
    return error != 0 ? refuse(error) : ((int (*)(const char *, struct stat *))next("lstat"))(path, out);
}

int fstat(int fd, struct stat *out) {
    int error = fate_of_fd("stat", fd);
    return error != 0 ? refuse(error) : ((int (*)(int, struct stat *))next("fstat"))(fd, out);
}

int rename(const char *from, const char *to) {
    int error = fate("rename", name_in_folder(from), "", 0);
    return error != 0 ? refuse(error) : ((int (*)(const char *, const char *))next("rename"))(from, to);
}

int renameat2(int at, const char *from, int below, const char *to, unsigned flags) {
    int error = fate("rename", name_in_folder(from), "", 0);
    int (*call)(int, const char *, int, const char *, unsigned) = next("renameat2");
    return error != 0 ? refuse(error) : call(at, from, below, to, flags);
}

int link(const char *from, const char *to) {
    int error = fate("link", name_in_folder(to), "", 0);
    return error != 0 ? refuse(error) : ((int (*)(const char *, const char *))next("link"))(from, to);
}

int unlink(const char *path) {
    int error = fate("unlink", name_in_folder(path), "", 0);
    return error != 0 ? refuse(error) : ((int (*)(const char *))next("unlink"))(path);
}

int unlinkat(int at, const char *path, int flags) {
    int error = fate("unlink", name_in_folder(path), "", 0);
    return error != 0 ? refuse(error) : ((int (*)(int, const char *, int))next("unlinkat"))(at, path, flags);
}

char *realpath(const char *path, char *resolved) {
    int error = fate("path", name_in_folder(path), "", 0);
    if (error != 0) {
        errno = error;
        return NULL;
    }
    return ((char *(*)(const char *, char *))next("realpath"))(path, resolved);
}

int chmod(const char *path, mode_t mode) {
    int error = fate("chmod", name_in_folder(path), "", 0);
    return error != 0 ? refuse(error) : ((int (*)(const char *, mode_t))next("chmod"))(path, mode);
}

int fchmod(int fd, mode_t mode) {
    int error = fate_of_fd("chmod", fd);
    return error != 0 ? refuse(error) : ((int (*)(int, mode_t))next("fchmod"))(fd, mode);
}

int chown(const char *path, uid_t user, gid_t group) {
    int error = fate("chown", name_in_folder(path), "", 0);
    return error != 0 ? refuse(error) : ((int (*)(const char *, uid_t, gid_t))next("chown"))(path, user, group);
}

int lchown(const char *path, uid_t user, gid_t group) {
    int error = fate("chown", name_in_folder(path), "", 0);
    return error != 0 ? refuse(error) : ((int (*)(const char *, uid_t, gid_t))next("lchown"))(path, user, group);
}

int fchown(int fd, uid_t user, gid_t group) {
    int error = fate_of_fd("chown", fd);
    return error != 0 ? refuse(error) : ((int (*)(int, uid_t, gid_t))next("fchown"))(fd, user, group);
}

int flock(int fd, int how) {
    int error = fate_of_fd("lock", fd);
    return error != 0 ? refuse(error) : ((int (*)(int, int))next("flock"))(fd, how);
}

// Notes a write or a sync of the traced file.
static void trace(int fd, int64_t place, const void *bytes, size_t length) {
    char room[5000];
    if (trace_path == NULL || traced == NULL)
        return;
    const char *name = name_of_fd(fd, room, sizeof room);
    if (name == NULL || strcmp(name, traced) != 0)
        return;
    char *note = malloc(sizeof(struct event) + length);
    if (note == NULL)
        _exit(98);
    struct event event = {place, (int64_t)length};
    memcpy(note, &event, sizeof event);
    if (length > 0)
        memcpy(note + sizeof event, bytes, length);
    append(trace_path, note, sizeof event + length);
    free(note);
}

static int sync_as(int fd, const char *real) {
    struct stat found;
    int is_folder = ((int (*)(int, struct stat *))next("fstat"))(fd, &found) == 0 && S_ISDIR(found.st_mode);
    int error = fate_of_fd(is_folder ? "syncdir" : "sync", fd);
    if (error == 0 && ((int (*)(int))next(real))(fd) != 0)
        error = errno;
    trace(fd, error == 0 ? -1 : -2, NULL, 0);
    return error != 0 ? refuse(error) : 0;
}

int fsync(int fd) {
    return sync_as(fd, "fsync");
}

int fdatasync(int fd) {
    return sync_as(fd, "fdatasync");
}

int ftruncate(int fd, off_t length) {
    int error = fate_of_fd("truncate", fd);
    return error != 0 ? refuse(error) : ((int (*)(int, off_t))next("ftruncate"))(fd, length);
}

int ftruncate64(int fd, off_t length) {
    return ftruncate(fd, length);
}

off_t lseek(int fd, off_t place, int whence) {
    int error = fate_of_fd("seek", fd);
    return error != 0 ? refuse(error) : ((off_t(*)(int, off_t, int))next("lseek"))(fd, place, whence);
}

off_t lseek64(int fd, off_t place, int whence) {
    return lseek(fd, place, whence);
}

ssize_t read(int fd, void *bytes, size_t length) {
    int error = fate_of_fd("read", fd);
    return error != 0 ? refuse(error) : ((ssize_t(*)(int, void *, size_t))next("read"))(fd, bytes, length);
}

ssize_t pread(int fd, void *bytes, size_t length, off_t place) {
    int error = fate_of_fd("read", fd);
    return error != 0 ? refuse(error)
                      : ((ssize_t(*)(int, void *, size_t, off_t))next("pread"))(fd, bytes, length, place);
}

ssize_t pread64(int fd, void *bytes, size_t length, off_t place) {
    return pread(fd, bytes, length, place);
}

ssize_t write(int fd, const void *bytes, size_t length) {
    int error = fate_of_fd("write", fd);
    if (error != 0)
        return refuse(error);
    int64_t place = trace_path == NULL ? 0 : ((off_t(*)(int, off_t, int))next("lseek"))(fd, 0, SEEK_CUR);
    ssize_t put = ((ssize_t(*)(int, const void *, size_t))next("write"))(fd, bytes, length);
    if (put > 0)
        trace(fd, place, bytes, (size_t)put);
    return put;
}

ssize_t pwrite(int fd, const void *bytes, size_t length, off_t place) {
    int error = fate_of_fd("write", fd);
    if (error != 0)
        return refuse(error);
    ssize_t put = ((ssize_t(*)(int, const void *, size_t, off_t))next("pwrite"))(fd, bytes, length, place);
    if (put > 0)
        trace(fd, place, bytes, (size_t)put);
    return put;
}

ssize_t pwrite64(int fd, const void *bytes, size_t length, off_t place) {
    return pwrite(fd, bytes, length, place);
}

ssize_t writev(int fd, const struct iovec *parts, int count) {
    int error = fate_of_fd("write", fd);
    return error != 0 ? refuse(error) : ((ssize_t(*)(int, const struct iovec *, int))next("writev"))(fd, parts, count);
}
