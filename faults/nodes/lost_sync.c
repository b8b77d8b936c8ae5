/* Loaded into a node program by LD_PRELOAD. If the file exists that the variable LOST_SYNC names when the program is to
   sync its log, the computer seems to stop: the log loses what was not synced before, and the process ends. If the
   variable NEVER_SYNCS is set, the program only seems to sync, so that the log loses everything then. */
#define _GNU_SOURCE
#include <dlfcn.h>
#include <stdlib.h>
#include <sys/stat.h>
#include <unistd.h>

enum { MOST_FILES = 1024 };

/* How many bytes of each open file were synced. */
static off_t synced[MOST_FILES];

int fdatasync(int file)
{
    const char *mark = getenv("LOST_SYNC");
    int within = file >= 0 && file < MOST_FILES;
    if (mark && access(mark, F_OK) == 0) {
        if (!within || ftruncate(file, synced[file]) != 0)
            abort();
        _exit(0);
    }
    if (getenv("NEVER_SYNCS"))
        return 0;
    int (*sync)(int) = (int (*)(int))dlsym(RTLD_NEXT, "fdatasync");
    int result = sync(file);
    struct stat status;
    if (result == 0 && within && fstat(file, &status) == 0)
        synced[file] = status.st_size;
    return result;
}
