/* Refuses random bytes to the program that it is loaded into (LD_PRELOAD). */
#include <errno.h>
#include <stddef.h>

int getentropy(void *buffer, size_t size) {
    (void)buffer, (void)size;
    errno = ENOSYS;
    return -1;
}
