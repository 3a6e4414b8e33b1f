/* Refuses allocations of memory of the program that it is loaded into (LD_PRELOAD): the one whose number, from 1 on, is
   in REFUSED_ALLOCATION, and with REFUSED_SINCE all after it as well; with REFUSED_END all after the end of standard
   input, or of a connection. With REFUSED_AFTER and REFUSED_UNTIL those alone have a number that come when more bytes
   of standard input were read than the first says, and no more than the second. Where an allocation was refused, the
   file that REFUSED_MARK names is made; it has a byte where the run had begun before: standard input had been read, or
   a connection accepted. */
#define _GNU_SOURCE
#include <dlfcn.h>
#include <errno.h>
#include <fcntl.h>
#include <stdatomic.h>
#include <stddef.h>
#include <stdlib.h>
#include <sys/socket.h>
#include <unistd.h>

static atomic_long allocations, bytes_read;
static atomic_int has_begun, has_ended;

static int is_counted(void) {
    const char *after = getenv("REFUSED_AFTER"), *until = getenv("REFUSED_UNTIL");
    long so_far = atomic_load(&bytes_read);
    return (!after || so_far > atol(after)) && (!until || so_far <= atol(until));
}

static int is_numbered(void) {
    const char *refused = getenv("REFUSED_ALLOCATION");
    if (!refused || !is_counted()) return 0;
    long number = atomic_fetch_add(&allocations, 1) + 1, first = strtol(refused, NULL, 10);
    return getenv("REFUSED_SINCE") ? number >= first : number == first;
}

static int is_refused(void) {
    int is_late = atomic_load(&has_ended) && getenv("REFUSED_END");
    if (!is_numbered() && !is_late) return 0;
    const char *mark = getenv("REFUSED_MARK");
    /* The first refusal makes it. */
    int file = mark ? open(mark, O_CREAT | O_EXCL | O_WRONLY, 0600) : -1;
    if (file >= 0 && atomic_load(&has_begun) && write(file, "+", 1) != 1) abort();
    if (file >= 0) close(file);
    errno = ENOMEM;
    return 1;
}

ssize_t read(int file, void *buffer, size_t size) {
    static ssize_t (*next)(int, void *, size_t);
    if (!next) next = (ssize_t (*)(int, void *, size_t))dlsym(RTLD_NEXT, "read");
    ssize_t count = next(file, buffer, size);
    if (file == 0) atomic_store(&has_begun, 1);
    if (file == 0 && count > 0) atomic_fetch_add(&bytes_read, count);
    if (file == 0 && count == 0) atomic_store(&has_ended, 1);
    return count;
}

int accept4(int listener, struct sockaddr *address, socklen_t *length, int flags) {
    static int (*next)(int, struct sockaddr *, socklen_t *, int);
    if (!next) next = (int (*)(int, struct sockaddr *, socklen_t *, int))dlsym(RTLD_NEXT, "accept4");
    int file = next(listener, address, length, flags);
    if (file >= 0) atomic_store(&has_begun, 1);
    return file;
}

ssize_t recv(int file, void *buffer, size_t size, int flags) {
    static ssize_t (*next)(int, void *, size_t, int);
    if (!next) next = (ssize_t (*)(int, void *, size_t, int))dlsym(RTLD_NEXT, "recv");
    ssize_t count = next(file, buffer, size, flags);
    if (count == 0) atomic_store(&has_ended, 1);
    return count;
}

void *malloc(size_t size) {
    static void *(*next)(size_t);
    if (!next) next = (void *(*)(size_t))dlsym(RTLD_NEXT, "malloc");
    return is_refused() ? NULL : next(size);
}

void *realloc(void *old, size_t size) {
    static void *(*next)(void *, size_t);
    if (!next) next = (void *(*)(void *, size_t))dlsym(RTLD_NEXT, "realloc");
    return is_refused() ? NULL : next(old, size);
}

void *aligned_alloc(size_t alignment, size_t size) {
    static void *(*next)(size_t, size_t);
    if (!next) next = (void *(*)(size_t, size_t))dlsym(RTLD_NEXT, "aligned_alloc");
    return is_refused() ? NULL : next(alignment, size);
}

int posix_memalign(void **out, size_t alignment, size_t size) {
    static int (*next)(void **, size_t, size_t);
    if (!next) next = (int (*)(void **, size_t, size_t))dlsym(RTLD_NEXT, "posix_memalign");
    return is_refused() ? ENOMEM : next(out, alignment, size);
}

void *calloc(size_t count, size_t size) {
    static void *(*next)(size_t, size_t);
    if (!next) next = (void *(*)(size_t, size_t))dlsym(RTLD_NEXT, "calloc");
    return is_refused() ? NULL : next(count, size);
}
