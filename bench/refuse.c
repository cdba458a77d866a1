/* Loaded before a program, refuses one of its calls to the C library: `bench/stress` builds and uses it.
 *
 *     REFUSE=malloc|thread|read|write  the call
 *     REFUSE_AT=n                      the n-th of them is refused, from 1; 0 refuses none
 *     REFUSE_ON=1                      and so are all that follow
 *     REFUSE_PIECE=n                   reads and writes take at most n bytes
 *     REFUSE_TELL=fd                   a byte is written here where a call is refused
 */
#define _GNU_SOURCE
#include <dlfcn.h>
#include <errno.h>
#include <pthread.h>
#include <stdatomic.h>
#include <stdlib.h>
#include <string.h>
#include <sys/syscall.h>
#include <unistd.h>

extern void *__libc_malloc(size_t size);
extern void *__libc_realloc(void *at, size_t size);

static atomic_long calls;

static long setting(const char *name) {
    const char *text = getenv(name);
    return text ? atol(text) : 0;
}

static int is_refused(const char *call) {
    const char *refused = getenv("REFUSE");
    if (!refused || strcmp(refused, call) != 0)
        return 0;
    long number = atomic_fetch_add(&calls, 1) + 1, at = setting("REFUSE_AT");
    if (at == 0 || (setting("REFUSE_ON") ? number < at : number != at))
        return 0;
    syscall(SYS_write, setting("REFUSE_TELL"), "x", 1);
    return 1;
}

static size_t piece(size_t size) {
    size_t most = (size_t)setting("REFUSE_PIECE");
    return most && most < size ? most : size;
}

void *malloc(size_t size) {
    if (!is_refused("malloc"))
        return __libc_malloc(size);
    errno = ENOMEM;
    return NULL;
}

void *realloc(void *at, size_t size) {
    if (!is_refused("malloc"))
        return __libc_realloc(at, size);
    errno = ENOMEM;
    return NULL;
}

ssize_t read(int fd, void *into, size_t size) {
    if (!is_refused("read"))
        return syscall(SYS_read, fd, into, piece(size));
    errno = EIO;
    return -1;
}

ssize_t write(int fd, const void *from, size_t size) {
    if (!is_refused("write"))
        return syscall(SYS_write, fd, from, piece(size));
    errno = ENOSPC;
    return -1;
}

int pthread_create(pthread_t *thread, const pthread_attr_t *with, void *(*body)(void *), void *given) {
    int (*create)(pthread_t *, const pthread_attr_t *, void *(*)(void *), void *);
    *(void **)&create = dlsym(RTLD_NEXT, "pthread_create");
    return is_refused("thread") ? EAGAIN : create(thread, with, body, given);
}
