// Fails each positioned read of the program that it is loaded into with EIO that asks for a sector which can't be read:
// UNREADABLE says which, as `NAME SECTOR NAME SECTOR ..`, each NAME the last part of a file's path. After READABLE_AFTER such reads, if it
// is given, none fails. How many failed so far is written to FAILED_READS, if it is given.
#define _GNU_SOURCE
#include <dlfcn.h>
#include <errno.h>
#include <stdio.h>
#include <stdlib.h>
#include <string.h>
#include <sys/types.h>
#include <unistd.h>

static int failed;

static int is_unreadable(int fd, size_t n, off64_t at) {
    const char *rest = getenv("UNREADABLE"), *most = getenv("READABLE_AFTER");
    char link[64], path[4096], name[256];
    long long sector;
    int used;
    snprintf(link, sizeof link, "/proc/self/fd/%d", fd);
    ssize_t length = readlink(link, path, sizeof path - 1);
    if (!rest || length < 0 || (most && failed >= atoi(most)))
        return 0;
    path[length] = 0;
    const char *last = strrchr(path, '/');
    while (sscanf(rest, "%255s %lld%n", name, &sector, &used) == 2) {
        if (last && !strcmp(last + 1, name) && at < (sector + 1) * 512 && at + (off64_t)n > sector * 512)
            return 1;
        rest += used;
    }
    return 0;
}

static void count_failed(void) {
    const char *path = getenv("FAILED_READS");
    FILE *file = path ? fopen(path, "w") : NULL;
    failed++;
    if (!file)
        return;
    fprintf(file, "%d\n", failed);
    fclose(file);
}

ssize_t pread64(int fd, void *bytes, size_t n, off64_t at) {
    static ssize_t (*real)(int, void *, size_t, off64_t);
    if (!real)
        real = dlsym(RTLD_NEXT, "pread64");
    if (is_unreadable(fd, n, at)) {
        count_failed();
        errno = EIO;
        return -1;
    }
    return real(fd, bytes, n, at);
}

ssize_t pread(int fd, void *bytes, size_t n, off_t at) { return pread64(fd, bytes, n, at); }
