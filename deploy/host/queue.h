/*
 * Bytes that wait to be written to a descriptor. Short ones are copied. Long ones stay where they lie, as a piece of
 * the queue, until they are written.
 */
#ifndef QUEUE_H
#define QUEUE_H

#include "buffer.h"

enum { MOST_PIECES = 256 };

/* Long bytes that lie elsewhere. Behind it go the next pieces, or the last of the copied bytes. */
struct piece {
    const char *bytes;
    size_t length;
    size_t before;            /* how many of the copied bytes go out before it */
    void (*release)(void *);  /* what to do with the owner of its memory once it is written, or NULL */
    void *owner;
    size_t idle;              /* bytes of that memory that are none of the queue's */
};

/* All zeros is an empty queue. */
struct queue {
    struct buffer copied;
    struct piece pieces[MOST_PIECES];  /* `count` of them, from number `first` modulo MOST_PIECES on */
    size_t first, count;
    size_t behind;                     /* how many of the copied bytes go out behind the last piece */
    size_t length;                     /* all bytes that wait */
    size_t idle;                       /* what the memory of the pieces has besides */
};

/* How much memory the queue holds back, in bytes. */
static inline size_t queue_holds(const struct queue *queue) {
    return queue->length + queue->idle;
}

/* Copies bytes to the end. False, with a message, where memory is refused. */
bool queue_add(struct queue *queue, const void *bytes, size_t count);

/* Adds bytes that stay where they lie, if they are long, or else copies them. They may not change before they are
 * written, or until `queue_settle`. `lent` grows by those that stay. False, with a message, where memory is refused. */
bool queue_lend(struct queue *queue, const char *bytes, size_t count, size_t *lent);

/* The memory of the bytes that were lent last, which has `idle` bytes besides, is the queue's from now on: `release`
 * gets its owner once they are written. */
void queue_own(struct queue *queue, void (*release)(void *), void *owner, size_t idle);

/* Copies what was lent last and does not wait in the queue's own memory, as far as it was not written. Nothing was
 * added behind it. False, with a message, where memory is refused. */
bool queue_settle(struct queue *queue);

/* Takes bytes from the front. */
void queue_drop(struct queue *queue, size_t count);

/* Writes until all is written or the descriptor takes no more. False where writing fails. */
bool queue_write(struct queue *queue, int descriptor);

void queue_free(struct queue *queue);

#endif
