#define _GNU_SOURCE
#include "login.h"
#include "say.h"

#include <errno.h>
#include <fcntl.h>
#include <string.h>
#include <sys/stat.h>
#include <unistd.h>

/* The bytes of a file that only its owner and its group may use. False, with a message, where there are none. */
static bool read_secret(struct login *login, const char *file) {
    struct stat about;
    ssize_t length = -1;
    int from = open(file, O_RDONLY | O_CLOEXEC);
    bool found = from >= 0 && fstat(from, &about) == 0;
    bool secret = found && (about.st_mode & S_IRWXO) == 0;
    if (secret)
        length = read(from, login->bytes, LONGEST_LOGIN - 1);
    if (length < 0)
        say("cannot use the login in %s: %s", file,
            found && !secret ? "all users of this machine may read or change it" : strerror(errno));
    if (from >= 0)
        close(from);
    login->bytes[length < 0 ? 0 : length] = 0;
    return length >= 0;
}

/* The line at a place, which ends there from now on, and the place behind it. NULL where the line is empty. */
static char *line_at(char **place) {
    char *line = strsep(place, "\n");
    return line == NULL || line[0] == 0 ? NULL : line;
}

bool read_login(struct login *login, const char *file) {
    char *place = login->bytes;
    if (!read_secret(login, file))
        return false;
    bool whole = strlen(login->bytes) < LONGEST_LOGIN - 1;
    login->user = line_at(&place);
    login->password = line_at(&place);
    if (whole && login->user != NULL && login->password != NULL && (place == NULL || place[0] == 0))
        return true;
    say("cannot use the login in %s: it has to be two short lines, a user and a password", file);
    return false;
}
