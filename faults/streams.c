/* Makes calls of the program that it is preloaded to fail: the opening of a file, its reads, or writes on standard
 * output or standard error.
 *
 * STREAMS_FILE   the file, by the name that the program opens,
 * STREAMS_CALL   the calls that fail: `open` or `read` for those of the file, `out` or `err` for writes,
 * STREAMS_NTH    the first of them that fails, from 1; the later ones fail too, or with STREAMS_ONCE only this one,
 * STREAMS_ERROR  the number of the error.
 * STREAMS_SHORT  if it is set, a read of the file and a write on standard output move one byte at most.
 * STREAMS_MARK   if it is set, each write on standard output has a `|` behind it there.
 * STREAMS_LOG    a file that gets the letter R where a call failed.
 *
 * Built by `faults/streams`, with the C compiler of the machine. */
#define _GNU_SOURCE
#include <errno.h>
#include <fcntl.h>
#include <stdarg.h>
#include <stdatomic.h>
#include <stdlib.h>
#include <string.h>
#include <sys/syscall.h>
#include <sys/uio.h>
#include <unistd.h>

static const char *name, *failing;
static long nth, error;
static int is_once, is_short, is_marked;
static atomic_long made;
static atomic_int script = -1;

static long number(const char *variable)
{
    const char *text = getenv(variable);
    return text ? atol(text) : 0;
}

__attribute__((constructor)) static void begin(void)
{
    name = getenv("STREAMS_FILE");
    failing = getenv("STREAMS_CALL");
    nth = number("STREAMS_NTH");
    error = number("STREAMS_ERROR");
    is_once = getenv("STREAMS_ONCE") != NULL;
    is_short = getenv("STREAMS_SHORT") != NULL;
    is_marked = getenv("STREAMS_MARK") != NULL;
}

static void note(void)
{
    const char *log = getenv("STREAMS_LOG");
    long file = log ? syscall(SYS_open, log, O_WRONLY | O_CREAT | O_APPEND, 0600) : -1;
    if (file >= 0) {
        syscall(SYS_write, file, "R", (size_t)1);
        syscall(SYS_close, file);
    }
}

/* Counts a call of this kind, and returns whether it fails. */
static int fails(const char *call)
{
    if (!failing || strcmp(call, failing) != 0)
        return 0;
    long count = atomic_fetch_add(&made, 1) + 1;
    if (count < nth || (is_once && count > nth))
        return 0;
    note();
    errno = (int)error;
    return 1;
}

static int open_at(int folder, const char *path, int flags, va_list rest)
{
    mode_t mode = flags & O_CREAT ? va_arg(rest, mode_t) : 0;
    int is_script = name && strcmp(path, name) == 0;
    if (is_script && fails("open"))
        return -1;
    int file = (int)syscall(SYS_openat, folder, path, flags, mode);
    if (is_script)
        atomic_store(&script, file);
    return file;
}

int open(const char *path, int flags, ...)
{
    va_list rest;
    va_start(rest, flags);
    int file = open_at(AT_FDCWD, path, flags, rest);
    va_end(rest);
    return file;
}

int openat(int folder, const char *path, int flags, ...)
{
    va_list rest;
    va_start(rest, flags);
    int file = open_at(folder, path, flags, rest);
    va_end(rest);
    return file;
}

int open64(const char *, int, ...) __attribute__((alias("open")));
int openat64(int, const char *, int, ...) __attribute__((alias("openat")));

ssize_t read(int file, void *bytes, size_t count)
{
    int is_script = file >= 0 && file == atomic_load(&script);
    if (is_script && fails("read"))
        return -1;
    return syscall(SYS_read, file, bytes, is_script && is_short && count > 1 ? 1 : count);
}

ssize_t writev(int file, const struct iovec *parts, int count)
{
    if ((file == 1 && fails("out")) || (file == 2 && fails("err")))
        return -1;
    if (file != 1)
        return syscall(SYS_writev, file, parts, count);
    struct iovec first = {NULL, 0};
    for (int i = 0; i < count && first.iov_len == 0; i++)
        first = (struct iovec){parts[i].iov_base, parts[i].iov_len > 0};
    ssize_t moved = is_short ? syscall(SYS_writev, file, &first, 1) : syscall(SYS_writev, file, parts, count);
    if (is_marked && moved >= 0)
        syscall(SYS_write, file, "|", (size_t)1);
    return moved;
}

ssize_t write(int file, const void *bytes, size_t count)
{
    struct iovec part = {(void *)bytes, count};
    return writev(file, &part, 1);
}
