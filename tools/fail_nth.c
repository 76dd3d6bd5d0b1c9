// Preloaded into the program, it counts its calls of a kind and fails one of them. The kind is `growth` (of memory), `open`, `read` or
// `write`; with `short`, each read and each write moves one byte. tools/sweep_failures.py builds and uses it.
//
// FAIL_KIND  the kind
// FAIL_AT    the number of the call that fails, from 1; 0 for none
// FAIL_TELL  the file into which the number of calls is written at the end
#define _GNU_SOURCE
#include <errno.h>
#include <fcntl.h>
#include <stdarg.h>
#include <stdio.h>
#include <stdlib.h>
#include <string.h>
#include <sys/syscall.h>
#include <unistd.h>

extern void *__libc_malloc(size_t size);
extern void *__libc_calloc(size_t count, size_t size);
extern void *__libc_realloc(void *old, size_t size);
extern void *__libc_memalign(size_t align, size_t size);

static char kind = ' ';
static long at, calls;

__attribute__((constructor)) static void begin(void)
{
    const char *asked = getenv("FAIL_KIND");
    const char *number = getenv("FAIL_AT");
    if (asked)
        kind = asked[0];
    if (number)
        at = atol(number);
    calls = 0;
}

__attribute__((destructor)) static void end(void)
{
    const char *path = getenv("FAIL_TELL");
    char text[32];
    if (!path)
        return;
    int length = snprintf(text, sizeof text, "%ld\n", calls);
    int file = syscall(SYS_openat, AT_FDCWD, path, O_WRONLY | O_CREAT | O_TRUNC, 0600);
    if (file >= 0) {
        syscall(SYS_write, file, text, length);
        syscall(SYS_close, file);
    }
}

// Whether this call of a kind is the one that fails.
static int fails(char of)
{
    return of == kind && ++calls == at;
}

void *malloc(size_t size)
{
    if (fails('g')) {
        errno = ENOMEM;
        return NULL;
    }
    return __libc_malloc(size);
}

void *calloc(size_t count, size_t size)
{
    if (fails('g')) {
        errno = ENOMEM;
        return NULL;
    }
    return __libc_calloc(count, size);
}

void *realloc(void *old, size_t size)
{
    if (fails('g')) {
        errno = ENOMEM;
        return NULL;
    }
    return __libc_realloc(old, size);
}

int posix_memalign(void **to, size_t align, size_t size)
{
    if (fails('g'))
        return ENOMEM;
    *to = __libc_memalign(align, size);
    return *to ? 0 : ENOMEM;
}

void *aligned_alloc(size_t align, size_t size)
{
    if (fails('g')) {
        errno = ENOMEM;
        return NULL;
    }
    return __libc_memalign(align, size);
}

int open(const char *path, int flags, ...)
{
    va_list rest;
    va_start(rest, flags);
    int mode = flags & O_CREAT ? va_arg(rest, int) : 0;
    va_end(rest);
    if (fails('o')) {
        errno = EACCES;
        return -1;
    }
    return syscall(SYS_openat, AT_FDCWD, path, flags, mode);
}

ssize_t read(int file, void *to, size_t size)
{
    if (fails('r')) {
        errno = EIO;
        return -1;
    }
    return syscall(SYS_read, file, to, kind == 's' && size > 1 ? 1 : size);
}

ssize_t write(int file, const void *from, size_t size)
{
    if (fails('w')) {
        errno = ENOSPC;
        return -1;
    }
    return syscall(SYS_write, file, from, kind == 's' && size > 1 ? 1 : size);
}

// The name by which the C library's own headers may have it called.
ssize_t __write(int file, const void *from, size_t size) __attribute__((alias("write")));
