// Refuses the allocation number REFUSE (from 1) of the program that it is loaded into, and makes the file REFUSE_MET where
// there was one.
#define _GNU_SOURCE
#include <dlfcn.h>
#include <fcntl.h>
#include <stdlib.h>
#include <unistd.h>

static long seen, refused_at = -1;

static int refuse(void) {
    if (refused_at < 0) {
        const char *n = getenv("REFUSE");
        refused_at = n ? atol(n) : 0;
    }
    if (++seen != refused_at)
        return 0;
    const char *met = getenv("REFUSE_MET");
    int file = met ? open(met, O_WRONLY | O_CREAT | O_TRUNC, 0644) : -1;
    if (file >= 0)
        close(file);
    return 1;
}

void *malloc(size_t n) {
    static void *(*real)(size_t);
    if (!real)
        real = dlsym(RTLD_NEXT, "malloc");
    return refuse() ? NULL : real(n);
}

void *calloc(size_t n, size_t size) {
    static void *(*real)(size_t, size_t);
    if (!real)
        real = dlsym(RTLD_NEXT, "calloc");
    return refuse() ? NULL : real(n, size);
}

void *realloc(void *p, size_t n) {
    static void *(*real)(void *, size_t);
    if (!real)
        real = dlsym(RTLD_NEXT, "realloc");
    return refuse() ? NULL : real(p, n);
}

int posix_memalign(void **p, size_t alignment, size_t n) {
    static int (*real)(void **, size_t, size_t);
    if (!real)
        real = dlsym(RTLD_NEXT, "posix_memalign");
    return refuse() ? 12 : real(p, alignment, n);
}

void *aligned_alloc(size_t alignment, size_t n) {
    static void *(*real)(size_t, size_t);
    if (!real)
        real = dlsym(RTLD_NEXT, "aligned_alloc");
    return refuse() ? NULL : real(alignment, n);
}
