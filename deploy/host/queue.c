#include "queue.h"

#include <errno.h>
#include <sys/uio.h>

enum { MOST_PARTS = 128 };  /* of one call of the system */

static struct piece *piece_at(struct queue *queue, size_t place) {
    return &queue->pieces[(queue->first + place) % MOST_PIECES];
}

bool queue_add(struct queue *queue, const void *bytes, size_t count) {
    if (!buffer_add(&queue->copied, bytes, count))
        return false;
    queue->behind += count;
    queue->length += count;
    return true;
}

bool queue_lend(struct queue *queue, const char *bytes, size_t count, size_t *lent) {
    if (count < LONG || queue->count == MOST_PIECES)
        return queue_add(queue, bytes, count);
    *piece_at(queue, queue->count++) = (struct piece){.bytes = bytes, .length = count, .before = queue->behind};
    queue->behind = 0;
    queue->length += count;
    *lent += count;
    return true;
}

void queue_own(struct queue *queue, void (*release)(void *), void *owner, size_t idle) {
    struct piece *last = piece_at(queue, queue->count - 1);
    last->release = release;
    last->owner = owner;
    last->idle = idle;
    queue->idle += idle;
}

bool queue_settle(struct queue *queue) {
    struct piece *last = queue->count == 0 ? NULL : piece_at(queue, queue->count - 1);
    if (last == NULL || last->release != NULL)
        return true;
    if (!buffer_add(&queue->copied, last->bytes, last->length))
        return false;
    queue->behind = last->before + last->length;
    queue->count--;
    return true;
}

static void drop_first(struct queue *queue) {
    struct piece *piece = piece_at(queue, 0);
    queue->idle -= piece->idle;
    queue->first = (queue->first + 1) % MOST_PIECES;
    queue->count--;
    if (piece->release != NULL)
        piece->release(piece->owner);
}

/* Sets the parts of the next call of the system. Their number. */
static int gather(struct queue *queue, struct iovec *parts) {
    int count = 0;
    char *copied = (char *)buffer_front(&queue->copied);
    for (size_t place = 0; place <= queue->count && count + 2 <= MOST_PARTS; place++) {
        struct piece *piece = place < queue->count ? piece_at(queue, place) : NULL;
        size_t before = piece == NULL ? queue->behind : piece->before;
        if (before > 0)
            parts[count++] = (struct iovec){copied, before};
        copied += before;
        if (piece != NULL)
            parts[count++] = (struct iovec){(char *)piece->bytes, piece->length};
    }
    return count;
}

void queue_drop(struct queue *queue, size_t count) {
    queue->length -= count;
    while (count > 0) {
        struct piece *piece = queue->count > 0 ? piece_at(queue, 0) : NULL;
        size_t *before = piece == NULL ? &queue->behind : &piece->before, part = count < *before ? count : *before;
        *before -= part;
        count -= part;
        buffer_drop(&queue->copied, part);
        if (piece == NULL || count == 0)
            continue;
        part = count < piece->length ? count : piece->length;
        piece->bytes += part;
        piece->length -= part;
        count -= part;
        if (piece->length == 0)
            drop_first(queue);
    }
}

bool queue_write(struct queue *queue, int descriptor) {
    struct iovec parts[MOST_PARTS];
    while (queue->length > 0) {
        ssize_t count = writev(descriptor, parts, gather(queue, parts));
        if (count < 0)
            return errno == EAGAIN || errno == EINTR;
        queue_drop(queue, (size_t)count);
    }
    return true;
}

void queue_free(struct queue *queue) {
    while (queue->count > 0)
        drop_first(queue);
    buffer_free(&queue->copied);
    *queue = (struct queue){0};
}
