/* Loaded into a program by LD_PRELOAD: a sync of a file takes as many microseconds as the variable SLOW_SYNC says, or
   what the disk takes, where that is longer. A program that makes its calls of the system without the C library, as one
   in Go does, syncs as before. */
#define _GNU_SOURCE
#include <dlfcn.h>
#include <errno.h>
#include <stdlib.h>
#include <time.h>
#include <unistd.h>

enum { SECOND = 1000000000 };

static int sync_slowly(const char *name, int file) {
    const char *word = getenv("SLOW_SYNC");
    long least = word == NULL ? 0 : 1000 * atol(word);
    struct timespec end;
    clock_gettime(CLOCK_MONOTONIC, &end);
    int (*sync)(int) = (int (*)(int))dlsym(RTLD_NEXT, name);
    int result = sync(file), error = errno;
    end.tv_sec += (end.tv_nsec + least) / SECOND;
    end.tv_nsec = (end.tv_nsec + least) % SECOND;
    while (clock_nanosleep(CLOCK_MONOTONIC, TIMER_ABSTIME, &end, NULL) == EINTR)
        continue;
    errno = error;
    return result;
}

int fsync(int file) {
    return sync_slowly("fsync", file);
}

int fdatasync(int file) {
    return sync_slowly("fdatasync", file);
}
