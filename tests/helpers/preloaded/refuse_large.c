/* Refuses the program that it is loaded into (LD_PRELOAD) each block of memory of more bytes than REFUSED_ABOVE says.
   Where it refused one, the file that REFUSED_MARK names is made. */
#define _GNU_SOURCE
#include <dlfcn.h>
#include <errno.h>
#include <fcntl.h>
#include <stddef.h>
#include <stdlib.h>
#include <unistd.h>

static int is_refused(size_t size) {
    const char *most = getenv("REFUSED_ABOVE"), *mark = getenv("REFUSED_MARK");
    if (!most || size <= strtoul(most, NULL, 10)) return 0;
    int file = mark ? open(mark, O_CREAT | O_WRONLY, 0600) : -1;
    if (file >= 0) close(file);
    errno = ENOMEM;
    return 1;
}

void *malloc(size_t size) {
    static void *(*next)(size_t);
    if (!next) next = (void *(*)(size_t))dlsym(RTLD_NEXT, "malloc");
    return is_refused(size) ? NULL : next(size);
}

void *realloc(void *old, size_t size) {
    static void *(*next)(void *, size_t);
    if (!next) next = (void *(*)(void *, size_t))dlsym(RTLD_NEXT, "realloc");
    return is_refused(size) ? NULL : next(old, size);
}

void *aligned_alloc(size_t alignment, size_t size) {
    static void *(*next)(size_t, size_t);
    if (!next) next = (void *(*)(size_t, size_t))dlsym(RTLD_NEXT, "aligned_alloc");
    return is_refused(size) ? NULL : next(alignment, size);
}

int posix_memalign(void **out, size_t alignment, size_t size) {
    static int (*next)(void **, size_t, size_t);
    if (!next) next = (int (*)(void **, size_t, size_t))dlsym(RTLD_NEXT, "posix_memalign");
    return is_refused(size) ? ENOMEM : next(out, alignment, size);
}

void *calloc(size_t count, size_t size) {
    static void *(*next)(size_t, size_t);
    if (!next) next = (void *(*)(size_t, size_t))dlsym(RTLD_NEXT, "calloc");
    size_t all;
    return __builtin_mul_overflow(count, size, &all) || is_refused(all) ? NULL : next(count, size);
}
