/* A library that is loaded before the C library and makes what the program asks of its host fail, by the environment's words:

   REFUSE_ALLOCATION N    the Nth allocation is refused; with REFUSE_ON also all behind it
   FAIL_WRITE N, AFTER J  the Nth put on standard output fails after J bytes; with FAIL_KIND 0 a write then takes no byte, else it fails so (errno)
   FAIL_READ N            the Nth read fails; with FAIL_KIND as errno
   FAIL_OPEN N            the Nth open of a file fails; with FAIL_KIND as errno
   SHORT                  each read and write moves one byte
   REPORT                 the name of a file, into which the counts go at the end: allocations, opens, reads, puts, and writes behind a failure

   A put is a write, with the writes that take what an earlier one left. Built by tools/hostile/library.py. */
#define _GNU_SOURCE
#include <errno.h>
#include <fcntl.h>
#include <stddef.h>
#include <stdio.h>
#include <stdlib.h>
#include <sys/syscall.h>
#include <unistd.h>

extern void *__libc_malloc(size_t);
extern void *__libc_calloc(size_t, size_t);
extern void *__libc_realloc(void *, size_t);
extern void *__libc_memalign(size_t, size_t);

static unsigned long allocations, opens, reads, puts_done, behind;
static unsigned long refused, failing_put, failing_read, failing_open, after;
static int refuse_on, short_moves, kind = EIO, begun, has_failed;
static size_t rest;
static const char *report;

static unsigned long number(const char *name)
{
    const char *text = getenv(name);
    return text ? strtoul(text, NULL, 10) : 0;
}

static void begin(void)
{
    if (begun)
        return;
    begun = 1;
    refused = number("REFUSE_ALLOCATION");
    refuse_on = getenv("REFUSE_ON") != NULL;
    failing_put = number("FAIL_WRITE");
    after = number("AFTER");
    failing_read = number("FAIL_READ");
    failing_open = number("FAIL_OPEN");
    short_moves = getenv("SHORT") != NULL;
    if (getenv("FAIL_KIND"))
        kind = (int)number("FAIL_KIND");
    report = getenv("REPORT");
}

static int is_refused(void)
{
    begin();
    allocations++;
    if (refused == 0 || (allocations != refused && !(refuse_on && allocations > refused)))
        return 0;
    errno = ENOMEM;
    return 1;
}

void *malloc(size_t size)
{
    return is_refused() ? NULL : __libc_malloc(size);
}

void *calloc(size_t count, size_t size)
{
    return is_refused() ? NULL : __libc_calloc(count, size);
}

void *realloc(void *old, size_t size)
{
    return is_refused() ? NULL : __libc_realloc(old, size);
}

void *reallocarray(void *old, size_t count, size_t size)
{
    size_t bytes;
    if (__builtin_mul_overflow(count, size, &bytes)) {
        errno = ENOMEM;
        return NULL;
    }
    return realloc(old, bytes);
}

void *memalign(size_t alignment, size_t size)
{
    return is_refused() ? NULL : __libc_memalign(alignment, size);
}

void *aligned_alloc(size_t alignment, size_t size)
{
    return memalign(alignment, size);
}

int posix_memalign(void **place, size_t alignment, size_t size)
{
    void *got = memalign(alignment, size);
    if (!got)
        return ENOMEM;
    *place = got;
    return 0;
}

static int opened(const char *name, int flags, int mode)
{
    begin();
    opens++;
    if (opens == failing_open) {
        errno = kind;
        return -1;
    }
    return (int)syscall(SYS_openat, AT_FDCWD, name, flags, mode);
}

int open(const char *name, int flags, ...)
{
    return opened(name, flags, 0);
}

int open64(const char *name, int flags, ...)
{
    return opened(name, flags, 0);
}

ssize_t read(int from, void *into, size_t size)
{
    begin();
    reads++;
    if (reads == failing_read) {
        errno = kind;
        return -1;
    }
    return syscall(SYS_read, from, into, short_moves && size > 1 ? 1 : size);
}

ssize_t write(int to, const void *bytes, size_t size)
{
    size_t count = size;
    begin();
    if (to != 1)
        return syscall(SYS_write, to, bytes, size);
    if (has_failed)
        behind++;
    if (rest == 0) {
        puts_done++;
        rest = size;
    }
    if (puts_done == failing_put) {
        if (has_failed || after == 0) {
            has_failed = 1;
            errno = kind;
            return kind ? -1 : 0;
        }
        if (count > after)
            count = after;
    }
    if (short_moves && count > 1)
        count = 1;
    ssize_t moved = syscall(SYS_write, to, bytes, count);
    if (moved > 0) {
        rest -= (size_t)moved;
        if (puts_done == failing_put)
            after -= (size_t)moved;
    }
    return moved;
}

__attribute__((destructor)) static void tell(void)
{
    char text[200];
    if (!report)
        return;
    int size = snprintf(text, sizeof text, "%lu %lu %lu %lu %lu\n", allocations, opens, reads, puts_done, behind);
    int file = (int)syscall(SYS_openat, AT_FDCWD, report, O_WRONLY | O_CREAT | O_TRUNC, 0600);
    if (file >= 0 && size > 0)
        (void)!syscall(SYS_write, file, text, (size_t)size);
}
