/* A queue of bytes that grows as bytes are added to its end. */
#ifndef BUFFER_H
#define BUFFER_H

#include <stdbool.h>
#include <stddef.h>
#include <sys/types.h>

enum {
    KEPT_ROOM = 1 << 19,  /* the room that an empty buffer may keep */
    LONG = 16 << 10       /* so many bytes are not copied, if they can be written from where they lie */
};

/* The bytes from `start` to `end` wait. All zeros is an empty buffer. */
struct buffer {
    char *bytes;
    size_t start, end, room;
};

static inline size_t buffer_length(const struct buffer *buffer) {
    return buffer->end - buffer->start;
}

static inline const char *buffer_front(const struct buffer *buffer) {
    return buffer->bytes == NULL ? "" : buffer->bytes + buffer->start;
}

/* Moves what waits to the front, and gives the buffer exactly this much room, which is enough for what waits. False,
 * with a message, where memory is refused. */
bool buffer_resize(struct buffer *buffer, size_t room);

/* Makes room for so many bytes at the end. An empty buffer gets no more room than that; any other gets more, so that
 * many small additions move its bytes only now and then. False, with a message, where memory is refused. */
bool buffer_reserve(struct buffer *buffer, size_t count);

/* Adds bytes at the end. False, with a message and nothing added, where memory is refused. */
bool buffer_add(struct buffer *buffer, const void *bytes, size_t count);

/* Takes bytes from the front. */
void buffer_drop(struct buffer *buffer, size_t count);

/* Gives memory back that a buffer of so many bytes, and with what waits in it, does not need. */
void buffer_trim(struct buffer *buffer, size_t needed);

/* Writes from the front until all is written or the descriptor takes no more. False where writing fails. */
bool buffer_write(struct buffer *buffer, int descriptor);

/* Writes once: what waits, and behind it bytes that lie elsewhere. How many of those were written; -1 where writing
 * fails. */
ssize_t buffer_write_with(struct buffer *buffer, int descriptor, const char *bytes, size_t length);

void buffer_free(struct buffer *buffer);

#endif
