#define _GNU_SOURCE
#include "streams.h"
#include "say.h"

#include <errno.h>
#include <fcntl.h>
#include <string.h>
#include <unistd.h>

bool streams_fill(void) {
    int file;
    do
        file = open("/dev/null", O_RDWR);
    while (file >= 0 && file <= STDERR_FILENO);
    if (file < 0) {
        say("cannot open /dev/null: %s (os error %d)", strerror(errno), errno);
        return false;
    }
    close(file);
    return true;
}
