/* Refuses one request for memory of the program that it is preloaded to.
 *
 * REFUSE_AFTER  counting begins once this many bytes were written on standard output,
 * REFUSE_NTH    the request, from 1, that is refused; it is counted until the next write on standard output or error.
 * REFUSE_LOG    a file that gets the letter R where a request was refused.
 *
 * Built by `faults/sweep`, with the C compiler of the machine. */
#define _GNU_SOURCE
#include <dlfcn.h>
#include <errno.h>
#include <fcntl.h>
#include <stdatomic.h>
#include <stdlib.h>
#include <sys/syscall.h>
#include <sys/uio.h>
#include <unistd.h>

extern void *__libc_malloc(size_t);
extern void *__libc_calloc(size_t, size_t);
extern void *__libc_realloc(void *, size_t);
extern void *__libc_memalign(size_t, size_t);

static long after, nth;
static atomic_long written, asked;
static atomic_int begun, ended;

static long number(const char *name)
{
    const char *text = getenv(name);
    return text ? atol(text) : -1;
}

static void note(void)
{
    const char *log = getenv("REFUSE_LOG");
    int file = log ? open(log, O_WRONLY | O_CREAT | O_APPEND, 0600) : -1;
    if (file >= 0) {
        syscall(SYS_write, file, "R", (size_t)1);
        close(file);
    }
}

__attribute__((constructor)) static void begin(void)
{
    after = number("REFUSE_AFTER");
    nth = number("REFUSE_NTH");
    atomic_store(&begun, 1);
}

static int is_refused(void)
{
    if (!atomic_load(&begun) || nth < 1 || atomic_load(&ended) || atomic_load(&written) < after)
        return 0;
    if (atomic_fetch_add(&asked, 1) + 1 != nth)
        return 0;
    note();
    errno = ENOMEM;
    return 1;
}

void *malloc(size_t size)
{
    return is_refused() ? NULL : __libc_malloc(size);
}

void *calloc(size_t count, size_t size)
{
    return is_refused() ? NULL : __libc_calloc(count, size);
}

void *realloc(void *old, size_t size)
{
    return is_refused() ? NULL : __libc_realloc(old, size);
}

void *aligned_alloc(size_t alignment, size_t size)
{
    return is_refused() ? NULL : __libc_memalign(alignment, size);
}

int posix_memalign(void **place, size_t alignment, size_t size)
{
    void *found = is_refused() ? NULL : __libc_memalign(alignment, size);
    if (!found)
        return ENOMEM;
    *place = found;
    return 0;
}

static ssize_t counted(int file, ssize_t count)
{
    if ((file == 1 || file == 2) && count > 0) {
        if (atomic_load(&written) >= after)
            atomic_store(&ended, 1);
        if (file == 1)
            atomic_fetch_add(&written, count);
    }
    return count;
}

ssize_t write(int file, const void *bytes, size_t count)
{
    return counted(file, syscall(SYS_write, file, bytes, count));
}

ssize_t writev(int file, const struct iovec *parts, int count)
{
    return counted(file, syscall(SYS_writev, file, parts, count));
}
