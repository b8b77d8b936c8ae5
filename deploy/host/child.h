/* A node that is a program: the host's child, which reads and writes frames on its standard input and output. */
#ifndef CHILD_H
#define CHILD_H

#include "coming.h"
#include "queue.h"

#include <stdint.h>

struct child {
    pid_t process;
    int to, from;               /* the host's ends of the pipes */
    uint32_t to_watched;        /* the events for which the first of them is waited for */
    int status;                 /* how it ended, as `waitpid` gives it */
};

/* Starts `program FILE NUMBER FOLDER`, which locks the folder; this epoll descriptor waits for its output. */
bool child_start(struct child *child, int epoll, const char *program, const char *file, const char *number,
                 const char *folder);

/* How many bytes lie in the pipe to the child. */
size_t child_unread(const struct child *child);

/* Waits until the pipe to the child takes bytes, if some wait, or no longer. */
bool child_watch(struct child *child, int epoll, bool waits);

/* Writes what waits, as far as the child takes it. */
void child_write(struct child *child, struct queue *out);

/* One read to the end of `in`, which begins with a frame of at least `need` bytes. */
enum coming child_read(struct child *child, struct buffer *in, size_t need);

/* Closes the pipes, asks the child to end, and ends it if it has not after some seconds. */
void child_stop(struct child *child);

/* Says how the child ended. */
void child_say_end(const struct child *child);

/* The status with which the host ends because the child has. */
int child_status(const struct child *child);

#endif
