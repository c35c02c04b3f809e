// Makes positioned reads of one file unsteady in the program that it is loaded into: UNSTEADY says where, as `NAME FIRST END EACH`, NAME the
// last part of the file's path. Of the sectors from FIRST on and before END only single ones can be read, and each of them only once. A
// read of a sector whose number is a multiple of EACH fails if the read before it was of the sector before it. How many reads of the file
// there were is written to UNSTEADY_READS, if it is given.
#define _GNU_SOURCE
#include <dlfcn.h>
#include <errno.h>
#include <stdio.h>
#include <stdlib.h>
#include <string.h>
#include <sys/types.h>
#include <unistd.h>

static unsigned char was_read[65536];
static long long last = -1;
static int reads;

static void count_read(void) {
    const char *path = getenv("UNSTEADY_READS");
    FILE *file = path ? fopen(path, "w") : NULL;
    reads++;
    if (!file)
        return;
    fprintf(file, "%d\n", reads);
    fclose(file);
}

static int is_file(int fd, const char *name) {
    char link[64], path[4096];
    snprintf(link, sizeof link, "/proc/self/fd/%d", fd);
    ssize_t length = readlink(link, path, sizeof path - 1);
    path[length < 0 ? 0 : length] = 0;
    const char *end = strrchr(path, '/');
    return end && !strcmp(end + 1, name);
}

static int fails(int fd, size_t n, off64_t at) {
    const char *words = getenv("UNSTEADY");
    char name[256];
    long long first, end, each;
    if (!words || sscanf(words, "%255s %lld %lld %lld", name, &first, &end, &each) != 4 || !is_file(fd, name))
        return 0;
    count_read();
    long long sector = at / 512, before = last;
    last = sector;
    if (at + (off64_t)n <= first * 512 || sector >= end)
        return 0;
    if (n != 512 || was_read[sector] || (sector % each == 0 && before == sector - 1))
        return 1;
    was_read[sector] = 1;
    return 0;
}

ssize_t pread64(int fd, void *bytes, size_t n, off64_t at) {
    static ssize_t (*real)(int, void *, size_t, off64_t);
    if (!real)
        real = dlsym(RTLD_NEXT, "pread64");
    if (fails(fd, n, at)) {
        errno = EIO;
        return -1;
    }
    return real(fd, bytes, n, at);
}

ssize_t pread(int fd, void *bytes, size_t n, off_t at) { return pread64(fd, bytes, n, at); }
