/* Loaded before relint by tests/faults: the call that FAULT_CALL names fails, or comes short, at its FAULT_NUMBER-th time, and
   the file FAULT_MARKS is made. Files of the loader and of this library itself don't come this way. */
#define _GNU_SOURCE
#include <dlfcn.h>
#include <errno.h>
#include <fcntl.h>
#include <stdarg.h>
#include <stdlib.h>
#include <string.h>
#include <sys/stat.h>
#include <sys/syscall.h>
#include <sys/types.h>
#include <unistd.h>

static const char *call_named;
static long number_named = -1, seen;

static void read_words(void)
{
    const char *text = getenv("FAULT_NUMBER");
    call_named = getenv("FAULT_CALL");
    if (!call_named)
        call_named = "none";
    number_named = text ? atol(text) : 0;
}

static void leave_mark(void)
{
    const char *path = getenv("FAULT_MARKS");
    long opened = path ? syscall(SYS_openat, AT_FDCWD, path, O_WRONLY | O_CREAT, 0600) : -1;
    if (opened >= 0)
        syscall(SYS_close, (int)opened);
}

/* Whether this call of that name is the one that has to fail. */
static int is_named(const char *name)
{
    if (number_named < 0)
        read_words();
    if (strcmp(name, call_named) != 0 || ++seen != number_named)
        return 0;
    leave_mark();
    return 1;
}

static int fails(const char *name, int error)
{
    if (!is_named(name))
        return 0;
    errno = error;
    return 1;
}

void *malloc(size_t size)
{
    static void *(*real)(size_t);
    if (!real)
        real = (void *(*)(size_t))dlsym(RTLD_NEXT, "malloc");
    return fails("malloc", ENOMEM) ? 0 : real(size);
}

void *realloc(void *old, size_t size)
{
    static void *(*real)(void *, size_t);
    if (!real)
        real = (void *(*)(void *, size_t))dlsym(RTLD_NEXT, "realloc");
    return fails("realloc", ENOMEM) ? 0 : real(old, size);
}

void *aligned_alloc(size_t align, size_t size)
{
    static void *(*real)(size_t, size_t);
    if (!real)
        real = (void *(*)(size_t, size_t))dlsym(RTLD_NEXT, "aligned_alloc");
    return fails("malloc", ENOMEM) ? 0 : real(align, size);
}

int posix_memalign(void **out, size_t align, size_t size)
{
    static int (*real)(void **, size_t, size_t);
    if (!real)
        real = (int (*)(void **, size_t, size_t))dlsym(RTLD_NEXT, "posix_memalign");
    return fails("malloc", ENOMEM) ? ENOMEM : real(out, align, size);
}

int open(const char *path, int flags, ...)
{
    va_list more;
    va_start(more, flags);
    mode_t mode = flags & O_CREAT ? va_arg(more, mode_t) : 0;
    va_end(more);
    return fails("open", EIO) ? -1 : (int)syscall(SYS_openat, AT_FDCWD, path, flags, mode);
}

int openat(int folder, const char *path, int flags, ...)
{
    va_list more;
    va_start(more, flags);
    mode_t mode = flags & O_CREAT ? va_arg(more, mode_t) : 0;
    va_end(more);
    return fails("openat", EIO) ? -1 : (int)syscall(SYS_openat, folder, path, flags, mode);
}

int statx(int folder, const char *restrict path, int flags, unsigned int mask, struct statx *restrict out)
{
    return fails("statx", EIO) ? -1 : (int)syscall(SYS_statx, folder, path, flags, mask, out);
}

ssize_t getdents64(int folder, void *out, size_t size)
{
    return fails("getdents64", EIO) ? -1 : syscall(SYS_getdents64, folder, out, size);
}

int close(int file)
{
    int ended = (int)syscall(SYS_close, file);
    return fails("close", EIO) ? -1 : ended;
}

ssize_t read(int file, void *out, size_t size)
{
    if (fails("read", EIO) || fails("interrupted-read", EINTR))
        return -1;
    if (size > 1 && is_named("short-read"))
        size /= 2;
    return syscall(SYS_read, file, out, size);
}

static ssize_t write_some(int file, const void *data, size_t size)
{
    if (fails("write", ENOSPC) || fails("interrupted-write", EINTR))
        return -1;
    if (size > 1 && is_named("short-write"))
        size /= 2;
    return syscall(SYS_write, file, data, size);
}

ssize_t write(int file, const void *data, size_t size)
{
    return write_some(file, data, size);
}

ssize_t __write(int file, const void *data, size_t size)
{
    return write_some(file, data, size);
}
