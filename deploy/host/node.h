/*
 * The node, as the rest of the host sees it: it takes frames, and writes frames. It runs in this process (embedded.h),
 * or it is a program behind two pipes (child.h).
 */
#ifndef NODE_H
#define NODE_H

#include "child.h"
#include "embedded.h"
#include "frame.h"

struct node {
    bool is_program;
    struct child child;         /* where it is a program */
    struct embedded embedded;   /* and where it is none */
    struct queue out;           /* what waits to be handed over */
    struct buffer in;           /* what the node wrote */
    struct scanner scanner;     /* of the frame with which `in` begins */
    uint64_t queued, tick_end;  /* bytes queued so far, and the end of the last tick among them */
};

/* Starts the node of this number, by a program unless that is NULL; this epoll descriptor then waits for what it
 * writes. False, with a message, where it does not start. */
bool node_start(struct node *node, int epoll, const char *program, const char *file, const char *number,
                const char *folder);

/* Queues a frame of this address: `count` strings, whose bytes are `body`. False where memory is refused. */
bool node_send(struct node *node, const char *address, size_t count, const char *body, size_t length);

/* Queues a frame whose strings may stay where they lie, if they are long: see `queue_lend`. */
bool node_lend(struct node *node, const char *address, size_t count, const char *body, size_t length, size_t *lent);

/* The memory of the frame that was lent last is the queue's from now on: see `queue_own`. */
void node_own(struct node *node, void (*release)(void *), void *owner, size_t idle);

/* Sends a frame whose strings are free again when this returns. Long ones are written from where they lie, as far as
 * the node takes them. False where memory is refused. */
bool node_pass(struct node *node, const char *address, size_t count, const char *body, size_t length);

/* Queues a tick with the nodes that were heard lately, as `count` strings, unless the node has not read the last tick
 * yet: a busy node does not find many at once. */
bool node_tick(struct node *node, size_t count, const char *heard, size_t length);

/* How much memory what waits for the node holds back. */
size_t node_holds(const struct node *node);

/* Whether so much waits for the node that no client is read. */
bool node_is_full(const struct node *node);

/* Waits until the node takes more, where something waits for it. False, with a message, where the system refuses it. */
bool node_watch(struct node *node, int epoll);

/* Hands over what waits, as far as the node takes it. */
void node_write(struct node *node);

/* Whether a node in this process has to be handed over what waits. */
bool node_waits(const struct node *node);

/* Reads what the node has written to the end of `in`. A node in this process does at most what comes before its next
 * frames. */
enum coming node_read(struct node *node);

/* Ends the node. */
void node_stop(struct node *node);

/* Says how the node ended. */
void node_say_end(const struct node *node);

/* The status with which the host ends because the node has. */
int node_status(const struct node *node);

#endif
