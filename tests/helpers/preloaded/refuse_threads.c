/* Refuses threads of the program that it is loaded into (LD_PRELOAD): all after so many as MOST_THREADS says, and the
   one whose number, from 1 on, is in REFUSED_THREAD. */
#define _GNU_SOURCE
#include <dlfcn.h>
#include <errno.h>
#include <pthread.h>
#include <stdatomic.h>
#include <stdlib.h>

static atomic_long made;

static int is_refused(long before) {
    const char *most = getenv("MOST_THREADS"), *refused = getenv("REFUSED_THREAD");
    return (most && before >= strtol(most, NULL, 10)) || (refused && before + 1 == strtol(refused, NULL, 10));
}

int pthread_create(pthread_t *thread, const pthread_attr_t *attributes, void *(*start)(void *), void *argument) {
    static int (*next)(pthread_t *, const pthread_attr_t *, void *(*)(void *), void *);
    if (!next) *(void **)&next = dlsym(RTLD_NEXT, "pthread_create");
    if (is_refused(atomic_fetch_add(&made, 1))) return EAGAIN;
    return next(thread, attributes, start, argument);
}
