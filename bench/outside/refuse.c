/* Put before the C library by LD_PRELOAD: refuses one call of the program. REFUSE names it, as in
   `malloc 17 fail`: the 17th call of malloc or realloc answers no memory; of `read`, `write`,
   `open` and `thread` the call of this number fails; with `on` in place of `fail` each behind it
   fails too, and with `short` it moves one byte alone. COUNTS names a file that is given how many
   calls of each there were. */
#define _GNU_SOURCE
#include <dlfcn.h>
#include <errno.h>
#include <fcntl.h>
#include <pthread.h>
#include <stdarg.h>
#include <stdatomic.h>
#include <stdio.h>
#include <stdlib.h>
#include <string.h>
#include <sys/syscall.h>
#include <unistd.h>

enum { MALLOC, READ, WRITE, OPEN, THREAD, CALLS };
static const char *names[CALLS] = {"malloc", "read", "write", "open", "thread"};
static _Atomic long counts[CALLS];

extern void *__libc_malloc(size_t size);
extern void *__libc_realloc(void *old, size_t size);

/* 0: the call goes on; 1: it fails; 2: it is short. */
static int refused(int call) {
    long number = atomic_fetch_add(&counts[call], 1) + 1;
    const char *wish = getenv("REFUSE");
    size_t length = strlen(names[call]);
    if (!wish || strncmp(wish, names[call], length) || wish[length] != ' ') return 0;
    char *end;
    long wanted = strtol(wish + length, &end, 10);
    if (!strcmp(end, " on")) return number >= wanted;
    if (number != wanted) return 0;
    return strcmp(end, " short") ? 1 : 2;
}

void *malloc(size_t size) {
    if (refused(MALLOC)) { errno = ENOMEM; return NULL; }
    return __libc_malloc(size);
}

void *realloc(void *old, size_t size) {
    if (refused(MALLOC)) { errno = ENOMEM; return NULL; }
    return __libc_realloc(old, size);
}

ssize_t read(int fd, void *to, size_t size) {
    int how = refused(READ);
    if (how == 1) { errno = EIO; return -1; }
    return syscall(SYS_read, fd, to, how == 2 && size > 1 ? 1 : size);
}

ssize_t write(int fd, const void *from, size_t size) {
    int how = refused(WRITE);
    if (how == 1) { errno = ENOSPC; return -1; }
    return syscall(SYS_write, fd, from, how == 2 && size > 1 ? 1 : size);
}

int open(const char *path, int flags, ...) {
    va_list rest;
    va_start(rest, flags);
    int mode = flags & O_CREAT ? va_arg(rest, int) : 0;
    va_end(rest);
    if (refused(OPEN)) { errno = EMFILE; return -1; }
    return (int)syscall(SYS_openat, AT_FDCWD, path, flags, mode);
}

typedef int create(pthread_t *, const pthread_attr_t *, void *(*)(void *), void *);

int pthread_create(pthread_t *thread, const pthread_attr_t *about, void *(*start)(void *),
                   void *with) {
    create *next = (create *)dlsym(RTLD_NEXT, "pthread_create");
    return refused(THREAD) ? EAGAIN : next(thread, about, start, with);
}

void _exit(int status) {
    const char *path = getenv("COUNTS");
    if (path) {
        char text[256];
        int length = 0;
        for (int i = 0; i < CALLS; i++)
            length += sprintf(text + length, "%s %ld\n", names[i], counts[i]);
        int fd = (int)syscall(SYS_openat, AT_FDCWD, path, O_WRONLY | O_CREAT | O_TRUNC, 0644);
        if (syscall(SYS_write, fd, text, length) < 0) status = 99;
    }
    for (;;) syscall(SYS_exit_group, status);
}
