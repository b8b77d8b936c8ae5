#define _GNU_SOURCE
#include "kept.h"
#include "say.h"

#include <errno.h>
#include <fcntl.h>
#include <stdio.h>
#include <string.h>
#include <sys/stat.h>
#include <unistd.h>

enum { LONGEST_NAME = 32 };

/* Reads until the end of the file, or until there is no room. */
static ssize_t read_all(int file, char *text, size_t room) {
    size_t length = 0;
    while (length < room) {
        ssize_t count = read(file, text + length, room - length);
        if (count == 0)
            break;
        if (count < 0 && errno != EINTR)
            return -1;
        length += count < 0 ? 0 : (size_t)count;
    }
    return (ssize_t)length;
}

static bool write_all(int file, const char *text, size_t length) {
    while (length > 0) {
        ssize_t count = write(file, text, length);
        if (count < 0 && errno != EINTR)
            return false;
        text += count < 0 ? 0 : count;
        length -= count < 0 ? 0 : (size_t)count;
    }
    return true;
}

ssize_t kept_read(const char *folder, const char *name, char *text, size_t room) {
    int place = open(folder, O_RDONLY | O_DIRECTORY | O_CLOEXEC);
    int file = place < 0 ? -1 : openat(place, name, O_RDONLY | O_CLOEXEC);
    bool missing = place >= 0 && file < 0 && errno == ENOENT;
    ssize_t length = file < 0 ? -1 : read_all(file, text, room);
    if (length < 0 && !missing)
        say("cannot read %s/%s: %s", folder, name, strerror(errno));
    if (file >= 0)
        close(file);
    if (place >= 0)
        close(place);
    return length >= 0 ? length : missing ? -1 : -2;
}

/* Writes a new file and syncs it. */
static bool write_new(int place, const char *name, const char *text, size_t length) {
    int file = openat(place, name, O_WRONLY | O_CREAT | O_TRUNC | O_CLOEXEC, 0600);
    if (file < 0)
        return false;
    bool written = fchmod(file, 0600) == 0 && write_all(file, text, length) && fsync(file) == 0;
    return close(file) == 0 && written;
}

bool kept_write(const char *folder, const char *name, const char *text, size_t length) {
    char new_name[LONGEST_NAME];
    snprintf(new_name, sizeof new_name, "%s.new", name);
    int place = open(folder, O_RDONLY | O_DIRECTORY | O_CLOEXEC);
    bool written = place >= 0 && write_new(place, new_name, text, length)
        && renameat(place, new_name, place, name) == 0 && fsync(place) == 0;
    if (!written)
        say("cannot write %s/%s: %s", folder, name, strerror(errno));
    if (place >= 0)
        close(place);
    return written;
}
