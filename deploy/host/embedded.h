/*
 * A node that runs in this process: the library `casnode`, and its log. The library takes frames, and says by tasks
 * what is to be done for them. They are carried out here, in their order, as `casnode.h` asks for it.
 */
#ifndef EMBEDDED_H
#define EMBEDDED_H

#include "coming.h"
#include "log_file.h"
#include "queue.h"

#include <casnode.h>

struct embedded {
    struct casnode node;
    struct log_file log;
    struct buffer bytes;  /* those that go to the log */
    bool has_tasks;       /* not all tasks are carried out */
    size_t place;         /* of the next task */
    int status;           /* with which the host ends because the node has; 0 while it runs */
};

/* Opens the node of this number from the log in its folder, and starts it. False, with a message, where this fails. */
bool embedded_open(struct embedded *node, const char *file, const char *number, const char *folder, struct buffer *in);

/* Hands over the frames that wait, if all tasks of those before are carried out. */
void embedded_handle(struct embedded *node, struct queue *out);

/* Carries out the tasks up to the next one that sends frames, and adds these to `in`. */
enum coming embedded_read(struct embedded *node, struct buffer *in);

void embedded_close(struct embedded *node);

#endif
