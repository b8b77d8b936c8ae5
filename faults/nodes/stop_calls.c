/* Numbers the calls by which a program changes the files of one folder, from 1, and disturbs one of them.
 *
 * STOP_FOLDER  the folder,
 * STOP_LIST    a file that gets a line for each call: its name, and the name of its file,
 * STOP_NTH     the number of the call that is disturbed; 0 or nothing disturbs none,
 * STOP_HOW     `kill`: the program is killed before the call; `half`: it is killed after the first half of a write;
 *              `short`: only the first half is written, as a write may do; `full`: the call fails with ENOSPC;
 *              `fail`: it fails with EIO.
 *
 * rewriting_test.py builds it, with the C compiler of the machine, and preloads it to the node program. */
#define _GNU_SOURCE
#include <errno.h>
#include <fcntl.h>
#include <limits.h>
#include <signal.h>
#include <stdarg.h>
#include <stdio.h>
#include <stdlib.h>
#include <string.h>
#include <sys/syscall.h>
#include <unistd.h>

enum { PASSES, IS_REFUSED, IS_HALVED };

static long calls;

static const char *word(const char *name)
{
    const char *text = getenv(name);
    return text ? text : "";
}

static int is_how(const char *how)
{
    return strcmp(word("STOP_HOW"), how) == 0;
}

/* The name of a file in the folder, "." for the folder itself, and NULL for any other file. */
static const char *name_in_folder(const char *path)
{
    const char *folder = word("STOP_FOLDER");
    size_t length = strlen(folder);
    if (length == 0 || strncmp(path, folder, length) != 0)
        return NULL;
    return path[length] == '/' ? path + length + 1 : path[length] == 0 ? "." : NULL;
}

static void list(const char *call, const char *name)
{
    char line[PATH_MAX];
    int length = snprintf(line, sizeof line, "%s %s\n", call, name);
    int file = (int)syscall(SYS_open, word("STOP_LIST"), O_WRONLY | O_CREAT | O_APPEND, 0600);
    if (file >= 0) {
        syscall(SYS_write, file, line, (size_t)length);
        syscall(SYS_close, file);
    }
}

static void die(void)
{
    syscall(SYS_kill, getpid(), SIGKILL);
}

/* What is to become of this call of a file with this path. */
static int what_of(const char *call, const char *path)
{
    const char *name = name_in_folder(path);
    if (!name)
        return PASSES;
    list(call, name);
    if (++calls != atol(word("STOP_NTH")))
        return PASSES;
    if (is_how("kill"))
        die();
    if (is_how("full") || is_how("fail")) {
        errno = is_how("full") ? ENOSPC : EIO;
        return IS_REFUSED;
    }
    return IS_HALVED;
}

static int what_of_open(const char *call, int file)
{
    char link[64], path[PATH_MAX];
    snprintf(link, sizeof link, "/proc/self/fd/%d", file);
    ssize_t length = readlink(link, path, sizeof path - 1);
    if (length < 0)
        return PASSES;
    path[length] = 0;
    return what_of(call, path);
}

int open(const char *path, int flags, ...)
{
    va_list more;
    va_start(more, flags);
    int mode = va_arg(more, int);
    va_end(more);
    if (what_of("open", path) == IS_REFUSED)
        return -1;
    return (int)syscall(SYS_open, path, flags, mode);
}

ssize_t write(int file, const void *bytes, size_t size)
{
    int what = what_of_open("write", file);
    if (what == IS_REFUSED)
        return -1;
    ssize_t written = syscall(SYS_write, file, bytes, what == IS_HALVED ? (size + 1) / 2 : size);
    if (what == IS_HALVED && is_how("half"))
        die();
    return written;
}

ssize_t __write(int file, const void *bytes, size_t size)
{
    return write(file, bytes, size);
}

int fdatasync(int file)
{
    return what_of_open("fdatasync", file) == IS_REFUSED ? -1 : (int)syscall(SYS_fdatasync, file);
}

int fsync(int file)
{
    return what_of_open("fsync", file) == IS_REFUSED ? -1 : (int)syscall(SYS_fsync, file);
}

int ftruncate(int file, off_t size)
{
    return what_of_open("ftruncate", file) == IS_REFUSED ? -1 : (int)syscall(SYS_ftruncate, file, size);
}

int rename(const char *from, const char *to)
{
    return what_of("rename", from) == IS_REFUSED ? -1 : (int)syscall(SYS_rename, from, to);
}

int unlink(const char *path)
{
    return what_of("unlink", path) == IS_REFUSED ? -1 : (int)syscall(SYS_unlink, path);
}
