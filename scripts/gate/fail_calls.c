// Fails call number FAIL (from 1) of the kind FAIL_KIND of the program that it is loaded into: `device` counts positioned reads
// and writes and syncs, `input` reads of standard input, `errors` writes of standard error, `output` other writes, `text` other
// reads, and each fails with EIO. `short` and `interrupted` count all of these but the syncs; such a call moves one byte, or is
// interrupted. `cut` counts the calls that change files and folders, but positioned writes, `change` these too, and the process is
// killed before that one. The file FAIL_MET then says which call it was, how many whole sectors positioned reads and writes had
// requested, including it, and of which file. With FAIL_CUT the program is killed in place of the call. `changed` counts positioned
// reads: before that one the file FAIL_CHANGED gets the first bytes of the file FAIL_TO, at most 4,096.
#define _GNU_SOURCE
#include <dlfcn.h>
#include <errno.h>
#include <fcntl.h>
#include <signal.h>
#include <stdarg.h>
#include <stdio.h>
#include <stdlib.h>
#include <string.h>
#include <sys/types.h>
#include <unistd.h>

static ssize_t (*real_write)(int, const void *, size_t);

// What positioned reads and writes asked for so far, in bytes.
static size_t asked_to_read, asked_to_write;

#define REAL(result, name, ...)                         \
    static result (*real)(__VA_ARGS__);                 \
    if (!real)                                          \
        real = dlsym(RTLD_NEXT, name)

static int real_open(const char *path, int flags, mode_t mode) {
    REAL(int, "open", const char *, int, ...);
    return real(path, flags, mode);
}

static void tell(const char *call, const char *path) {
    const char *met = getenv("FAIL_MET");
    char line[4300];
    int size = snprintf(line, sizeof line, "%s %zu %zu %s\n", call, asked_to_read / 512, asked_to_write / 512, path);
    int file = met ? real_open(met, O_WRONLY | O_CREAT | O_TRUNC, 0644) : -1;
    if (file < 0 || real_write(file, line, size) != size)
        abort();
    close(file);
}

// Whether this is the call's number, where it is of the kind that is wanted.
static int is_counted(const char *kind) {
    static long seen;
    const char *wanted = getenv("FAIL_KIND"), *number = getenv("FAIL");
    if (!real_write)
        real_write = dlsym(RTLD_NEXT, "write");
    return wanted && number && !strcmp(kind, wanted) && ++seen == atol(number);
}

static const char *path_of(int fd) {
    static char path[4096];
    char name[64];
    snprintf(name, sizeof name, "/proc/self/fd/%d", fd);
    ssize_t length = readlink(name, path, sizeof path - 1);
    path[length < 0 ? 0 : length] = 0;
    return path;
}

// Whether this is the call.
static int is_the_call(const char *kind, const char *call, int fd) {
    if (!is_counted(kind))
        return 0;
    tell(call, path_of(fd));
    if (getenv("FAIL_CUT"))
        raise(SIGKILL);
    return 1;
}

// Kills the process before a call.
static void cut(const char *call, const char *path) {
    tell(call, path);
    raise(SIGKILL);
}

// Kills the process before a call of the kinds `cut` and `change`.
static void may_cut(const char *call, const char *path) {
    if (is_counted("cut") || is_counted("change"))
        cut(call, path);
}

// Whether a call fails, with its error; one that moves less than it may changes its count.
static int fails(const char *kind, const char *call, int fd, size_t *count) {
    if (is_the_call(kind, call, fd)) {
        errno = EIO;
        return 1;
    }
    if (is_the_call("interrupted", call, fd)) {
        errno = EINTR;
        return 1;
    }
    if (*count > 1 && is_the_call("short", call, fd))
        *count = 1;
    return 0;
}

// Writes the first bytes of one file over those of another one, as another process would.
static void overwrite(const char *path, const char *from) {
    REAL(ssize_t, "pwrite64", int, const void *, size_t, off64_t);
    char bytes[4096];
    int source = real_open(from, O_RDONLY, 0), file = real_open(path, O_WRONLY, 0);
    ssize_t size = read(source, bytes, sizeof bytes);
    if (source < 0 || file < 0 || size <= 0 || real(file, bytes, size, 0) != size)
        abort();
    close(source);
    close(file);
}

static int sync_fails(int fd) {
    may_cut("sync", path_of(fd));
    if (!is_the_call("device", "sync", fd))
        return 0;
    errno = EIO;
    return 1;
}

ssize_t pread64(int fd, void *bytes, size_t n, off64_t at) {
    REAL(ssize_t, "pread64", int, void *, size_t, off64_t);
    asked_to_read += n;
    if (is_the_call("changed", "read", fd))
        overwrite(getenv("FAIL_CHANGED"), getenv("FAIL_TO"));
    return fails("device", "read", fd, &n) ? -1 : real(fd, bytes, n, at);
}

ssize_t pread(int fd, void *bytes, size_t n, off_t at) { return pread64(fd, bytes, n, at); }

ssize_t pwrite64(int fd, const void *bytes, size_t n, off64_t at) {
    REAL(ssize_t, "pwrite64", int, const void *, size_t, off64_t);
    asked_to_write += n;
    if (is_counted("change"))
        cut("write", path_of(fd));
    return fails("device", "write", fd, &n) ? -1 : real(fd, bytes, n, at);
}

ssize_t pwrite(int fd, const void *bytes, size_t n, off_t at) { return pwrite64(fd, bytes, n, at); }

int fsync(int fd) {
    REAL(int, "fsync", int);
    return sync_fails(fd) ? -1 : real(fd);
}

int fdatasync(int fd) {
    REAL(int, "fdatasync", int);
    return sync_fails(fd) ? -1 : real(fd);
}

int ftruncate64(int fd, off64_t size) {
    REAL(int, "ftruncate64", int, off64_t);
    may_cut("resize", path_of(fd));
    return real(fd, size);
}

int ftruncate(int fd, off_t size) { return ftruncate64(fd, size); }

ssize_t read(int fd, void *bytes, size_t n) {
    REAL(ssize_t, "read", int, void *, size_t);
    return fails(fd == 0 ? "input" : "text", "read", fd, &n) ? -1 : real(fd, bytes, n);
}

ssize_t write(int fd, const void *bytes, size_t n) {
    REAL(ssize_t, "write", int, const void *, size_t);
    if (fd > 2)
        may_cut("write", path_of(fd));
    return fails(fd == 2 ? "errors" : "output", "write", fd, &n) ? -1 : real(fd, bytes, n);
}

int open(const char *path, int flags, ...) {
    va_list more;
    va_start(more, flags);
    mode_t mode = flags & O_CREAT ? va_arg(more, mode_t) : 0;
    va_end(more);
    if (flags & O_CREAT)
        may_cut(flags & O_EXCL ? "create" : "open", path);
    return real_open(path, flags, mode);
}

int rename(const char *from, const char *to) {
    REAL(int, "rename", const char *, const char *);
    may_cut("rename", from);
    return real(from, to);
}

int unlink(const char *path) {
    REAL(int, "unlink", const char *);
    may_cut("remove", path);
    return real(path);
}
