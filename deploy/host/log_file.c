#define _GNU_SOURCE
#include "log_file.h"
#include "say.h"

#include <errno.h>
#include <fcntl.h>
#include <inttypes.h>
#include <signal.h>
#include <stdio.h>
#include <string.h>
#include <sys/file.h>
#include <sys/mman.h>
#include <sys/stat.h>
#include <unistd.h>

enum { OWNER_ALONE = 0600 };

/* Says what failed, and why. */
static bool fails(const char *what) {
    say("%s: %s (os error %d)", what, strerror(errno), errno);
    return false;
}

static bool lock_folder(struct log_file *log, const char *folder) {
    log->folder = open(folder, O_RDONLY | O_CLOEXEC);
    if (log->folder >= 0 && flock(log->folder, LOCK_EX | LOCK_NB) == 0)
        return true;
    if (log->folder < 0 && errno == ENOENT)
        say("FOLDER is not there");
    else if (log->folder >= 0 && errno == EWOULDBLOCK)
        say("another process runs in FOLDER");
    else
        fails("cannot lock FOLDER");
    return false;
}

bool log_open(struct log_file *log, const char *folder) {
    *log = (struct log_file){.folder = -1, .file = -1};
    if (!lock_folder(log, folder))
        return false;
    int length = snprintf(log->second, sizeof log->second, "%s/log.new", folder);
    snprintf(log->path, sizeof log->path, "%s/log", folder);
    if (length < 0 || (size_t)length >= sizeof log->second)
        errno = ENAMETOOLONG;
    else
        log->file = open(log->path, O_RDWR | O_APPEND | O_CREAT | O_CLOEXEC, OWNER_ALONE);
    return log->file >= 0 || fails("cannot open the log");
}

/* The system sends this signal where a page of the log cannot be read. */
static void cannot_read(int number) {
    (void)number;
    errno = EIO;
    fails("cannot read the log");
    _exit(1);
}

const uint8_t *log_bytes(const struct log_file *log, size_t *length) {
    struct stat found;
    if (fstat(log->file, &found) != 0) {
        fails("cannot open the log");
        return NULL;
    }
    *length = (size_t)found.st_size;
    if (*length == 0)
        return (const uint8_t *)"";
    void *bytes = mmap(NULL, *length, PROT_READ, MAP_PRIVATE, log->file, 0);
    if (bytes == MAP_FAILED) {
        fails("cannot open the log");
        return NULL;
    }
    signal(SIGBUS, cannot_read);
    madvise(bytes, *length, MADV_SEQUENTIAL);
    return bytes;
}

void log_forget(const uint8_t *bytes, size_t length) {
    if (length > 0)
        munmap((void *)bytes, length);
    signal(SIGBUS, SIG_DFL);
}

bool log_cut(struct log_file *log, uint64_t count) {
    struct stat found;
    if (fstat(log->file, &found) != 0)
        return fails("cannot open the log");
    if ((uint64_t)found.st_size <= count)
        return true;
    if (ftruncate(log->file, (off_t)count) != 0)
        return fails("cannot open the log");
    say("the log's last entry was cut short; %" PRIu64 " bytes were cut off", (uint64_t)found.st_size - count);
    return true;
}

static bool write_all(int file, const char *bytes, size_t count) {
    while (count > 0) {
        ssize_t written = write(file, bytes, count);
        if (written < 0 && errno != EINTR)
            return false;
        bytes += written < 0 ? 0 : written;
        count -= written < 0 ? 0 : (size_t)written;
    }
    return true;
}

bool log_append(struct log_file *log, const char *bytes, size_t count) {
    return write_all(log->file, bytes, count) || fails("cannot write the log");
}

bool log_sync(struct log_file *log) {
    if (fdatasync(log->file) != 0 || (!log->is_placed && fsync(log->folder) != 0))
        return fails("cannot write the log");
    log->is_placed = true;
    return true;
}

void log_stays(const char *cause) {
    say("the log was not written anew: %s", cause);
}

/* The new log, which is whole and synced, or -1. */
static int write_second(struct log_file *log, const char *bytes, size_t count) {
    int second = open(log->second, O_WRONLY | O_APPEND | O_CREAT | O_TRUNC | O_CLOEXEC, OWNER_ALONE);
    if (second >= 0 && write_all(second, bytes, count) && fdatasync(second) == 0)
        return second;
    fails("the log was not written anew");
    if (second >= 0) {
        close(second);
        log_remove_second(log);
    }
    return -1;
}

enum exchange log_replace(struct log_file *log, const char *bytes, size_t count) {
    int second = write_second(log, bytes, count);
    if (second < 0)
        return UNWRITTEN;
    log->is_placed = false;
    if (rename(log->second, log->path) != 0) {
        fails("cannot exchange the log");
        close(second);
        return UNKNOWN;
    }
    close(log->file);
    log->file = second;
    if (fsync(log->folder) != 0) {
        fails("cannot exchange the log");
        return UNKNOWN;
    }
    log->is_placed = true;
    return EXCHANGED;
}

void log_remove_second(struct log_file *log) {
    unlink(log->second);
}

void log_close(struct log_file *log) {
    if (log->file >= 0)
        close(log->file);
    if (log->folder >= 0)
        close(log->folder);
    log->file = log->folder = -1;
}
