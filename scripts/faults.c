// Loaded before the C library (LD_PRELOAD), makes chosen calls of a program fail. scripts/faults builds
// it and runs the program with it. What it is to do is in two variables of the environment:
//
//   FAULTS="CALL HOW FIRST LAST MARK"   the calls numbered FIRST to LAST, from 1, of CALL fail so:
//       CALL    alloc, open, read or write
//       HOW     refuse: no memory, no permission, an error of the device, no space on it
//               interrupt: a signal came before anything was done
//               short: one byte is read or written, and no more
//               none: a write takes nothing
//       MARK    the open file to which `.` is written for each call that failed so, and `w` for each write
//               of some bytes to a file that is neither standard output nor standard error
//   FAULTS_CUT=N                        no read or write handles more than N bytes
#define _GNU_SOURCE
#include <errno.h>
#include <fcntl.h>
#include <stdarg.h>
#include <stddef.h>
#include <stdio.h>
#include <stdlib.h>
#include <string.h>
#include <sys/syscall.h>
#include <sys/uio.h>
#include <unistd.h>

// After so many seconds the program is ended by a signal.
#define SECONDS 20

void *__libc_malloc(size_t);
void *__libc_calloc(size_t, size_t);
void *__libc_realloc(void *, size_t);
void *__libc_memalign(size_t, size_t);

static char call_wanted[16], how[16];
static long first, last, seen;
static int mark = -1;
static size_t cut = (size_t)-1;

__attribute__((constructor)) static void begin(void)
{
    const char *faults = getenv("FAULTS"), *limit = getenv("FAULTS_CUT");
    if (limit)
        cut = strtoul(limit, NULL, 10);
    if (faults && sscanf(faults, "%15s %15s %ld %ld %d", call_wanted, how, &first, &last, &mark) != 5)
        _exit(126);
    seen = 0;
    alarm(SECONDS);
}

// Puts a byte on the mark.
static void note(const char *byte)
{
    if (mark >= 0)
        syscall(SYS_write, mark, byte, 1);
}

// Whether this call is one of those that fail, which is noted where it is.
static int fails(const char *call)
{
    if (mark < 0 || strcmp(call, call_wanted) != 0)
        return 0;
    seen++;
    if (seen < first || seen > last)
        return 0;
    note(".");
    return 1;
}

static void *refused(void)
{
    errno = ENOMEM;
    return NULL;
}

void *malloc(size_t size) { return fails("alloc") ? refused() : __libc_malloc(size); }

void *calloc(size_t count, size_t size) { return fails("alloc") ? refused() : __libc_calloc(count, size); }

void *realloc(void *at, size_t size) { return fails("alloc") ? refused() : __libc_realloc(at, size); }

void *aligned_alloc(size_t alignment, size_t size)
{
    return fails("alloc") ? refused() : __libc_memalign(alignment, size);
}

int posix_memalign(void **at, size_t alignment, size_t size)
{
    if (fails("alloc"))
        return ENOMEM;
    *at = __libc_memalign(alignment, size);
    return *at ? 0 : ENOMEM;
}

// How many of `size` bytes a read or write handles, or -1 with the error where it fails.
static ssize_t handled(const char *call, size_t size, int error)
{
    size_t most = size < cut ? size : cut;
    if (!fails(call))
        return (ssize_t)most;
    if (strcmp(how, "short") == 0)
        return most < 1 ? (ssize_t)most : 1;
    if (strcmp(how, "none") == 0)
        return 0;
    errno = strcmp(how, "interrupt") == 0 ? EINTR : error;
    return -1;
}

ssize_t read(int file, void *bytes, size_t size)
{
    ssize_t count = handled("read", size, EIO);
    return count < 0 ? -1 : syscall(SYS_read, file, bytes, (size_t)count);
}

ssize_t write(int file, const void *bytes, size_t size)
{
    ssize_t count = handled("write", size, ENOSPC);
    if (count > 0 && file > STDERR_FILENO)
        note("w");
    return count <= 0 && size > 0 ? count : syscall(SYS_write, file, bytes, (size_t)count);
}

ssize_t __write(int file, const void *bytes, size_t size) { return write(file, bytes, size); }

ssize_t writev(int file, const struct iovec *parts, int count)
{
    for (int i = 0; i < count; i++)
        if (parts[i].iov_len > 0)
            return write(file, parts[i].iov_base, parts[i].iov_len);
    return write(file, NULL, 0);
}

// (the mode is read whether or not there is one: only the system looks at it)
int openat(int folder, const char *path, int flags, ...)
{
    va_list rest;
    va_start(rest, flags);
    mode_t mode = va_arg(rest, mode_t);
    va_end(rest);
    if (fails("open")) {
        errno = EACCES;
        return -1;
    }
    return (int)syscall(SYS_openat, folder, path, flags, mode);
}

int open(const char *path, int flags, ...)
{
    va_list rest;
    va_start(rest, flags);
    mode_t mode = va_arg(rest, mode_t);
    va_end(rest);
    return openat(AT_FDCWD, path, flags, mode);
}
