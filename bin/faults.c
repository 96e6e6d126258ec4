/* Preloaded before a program: refuses calls of one kind, as a system does that is out of memory, or whose disk fails.
 *
 * FAULT   alloc, read, write, idle-write, interrupted-read, interrupted-write, short-read, short-write, open, tell
 * AT      the number of the call that is refused, from 1 on
 * ALONE   if set, that call alone; else it and all later ones
 * COUNTS  the number of a file descriptor that gets how many allocations, reads, writes and opens there were
 *
 * Reads are those of all files, writes those to standard output; tell refuses writes to standard error. The short kinds
 * let each call take one byte.
 */
#define _GNU_SOURCE
#include <errno.h>
#include <fcntl.h>
#include <stdarg.h>
#include <stdio.h>
#include <stdlib.h>
#include <string.h>
#include <sys/syscall.h>
#include <sys/uio.h>
#include <unistd.h>

enum kind {
    NONE, ALLOC, READ, WRITE, IDLE_WRITE, INTERRUPTED_READ, INTERRUPTED_WRITE, SHORT_READ, SHORT_WRITE, OPEN, TELL
};

static const char *const names[] = {
    "none", "alloc", "read", "write", "idle-write", "interrupted-read", "interrupted-write", "short-read", "short-write",
    "open", "tell"
};

static enum kind kind;
static unsigned long at, allocations, reads, writes, opens;
static int alone, ready;

void *__libc_malloc(size_t);
void *__libc_calloc(size_t, size_t);
void *__libc_realloc(void *, size_t);
void *__libc_memalign(size_t, size_t);

__attribute__((constructor)) static void begin(void)
{
    const char *name = getenv("FAULT"), *number = getenv("AT");
    for (size_t i = 0; name && i < sizeof names / sizeof *names; i++)
        if (!strcmp(name, names[i]))
            kind = (enum kind)i;
    at = number ? strtoul(number, NULL, 10) : 0;
    alone = getenv("ALONE") != NULL;
    ready = 1;
}

__attribute__((destructor)) static void end(void)
{
    const char *file = getenv("COUNTS");
    char text[96];
    if (!file)
        return;
    int size = snprintf(text, sizeof text, "%lu %lu %lu %lu\n", allocations, reads, writes, opens);
    syscall(SYS_write, atoi(file), text, size);
}

static int is_met(enum kind wanted, unsigned long count)
{
    return kind == wanted && at && (alone ? count == at : count >= at);
}

static int refused(void)
{
    if (!ready || !is_met(ALLOC, ++allocations))
        return 0;
    errno = ENOMEM;
    return 1;
}

void *malloc(size_t size) { return refused() ? NULL : __libc_malloc(size); }

void *calloc(size_t count, size_t size) { return refused() ? NULL : __libc_calloc(count, size); }

void *realloc(void *old, size_t size) { return refused() ? NULL : __libc_realloc(old, size); }

void *memalign(size_t align, size_t size) { return refused() ? NULL : __libc_memalign(align, size); }

void *aligned_alloc(size_t align, size_t size) { return refused() ? NULL : __libc_memalign(align, size); }

int posix_memalign(void **place, size_t align, size_t size)
{
    void *made = refused() ? NULL : __libc_memalign(align, size);
    if (!made)
        return ENOMEM;
    *place = made;
    return 0;
}

ssize_t read(int file, void *buffer, size_t size)
{
    reads++;
    if (is_met(READ, reads)) {
        errno = EIO;
        return -1;
    }
    if (is_met(INTERRUPTED_READ, reads)) {
        errno = EINTR;
        return -1;
    }
    return syscall(SYS_read, file, buffer, kind == SHORT_READ && size > 1 ? 1 : size);
}

static ssize_t write_some(int file, const void *buffer, size_t size)
{
    if (file == 2 && kind == TELL) {
        errno = ENOSPC;
        return -1;
    }
    if (file == 1) {
        writes++;
        if (is_met(WRITE, writes)) {
            errno = ENOSPC;
            return -1;
        }
        if (is_met(INTERRUPTED_WRITE, writes)) {
            errno = EINTR;
            return -1;
        }
        if (is_met(IDLE_WRITE, writes))
            return 0;
        if (kind == SHORT_WRITE && size > 1)
            size = 1;
    }
    return syscall(SYS_write, file, buffer, size);
}

ssize_t write(int file, const void *buffer, size_t size) { return write_some(file, buffer, size); }

ssize_t writev(int file, const struct iovec *parts, int count)
{
    for (int i = 0; i < count; i++)
        if (parts[i].iov_len)
            return write_some(file, parts[i].iov_base, parts[i].iov_len);
    return 0;
}

static int open_some(int folder, const char *path, int flags, mode_t mode)
{
    opens++;
    if (is_met(OPEN, opens)) {
        errno = EACCES;
        return -1;
    }
    return syscall(SYS_openat, folder, path, flags, mode);
}

int open(const char *path, int flags, ...)
{
    va_list more;
    va_start(more, flags);
    mode_t mode = flags & O_CREAT ? va_arg(more, mode_t) : 0;
    va_end(more);
    return open_some(AT_FDCWD, path, flags, mode);
}

int open64(const char *path, int flags, ...)
{
    va_list more;
    va_start(more, flags);
    mode_t mode = flags & O_CREAT ? va_arg(more, mode_t) : 0;
    va_end(more);
    return open_some(AT_FDCWD, path, flags, mode);
}

int openat(int folder, const char *path, int flags, ...)
{
    va_list more;
    va_start(more, flags);
    mode_t mode = flags & O_CREAT ? va_arg(more, mode_t) : 0;
    va_end(more);
    return open_some(folder, path, flags, mode);
}
