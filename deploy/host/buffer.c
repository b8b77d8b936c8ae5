#include "buffer.h"
#include "say.h"

#include <errno.h>
#include <stdlib.h>
#include <string.h>
#include <sys/uio.h>
#include <unistd.h>

/* The C library has the system move a large piece of memory, and does not copy it. */
bool buffer_resize(struct buffer *buffer, size_t room) {
    size_t length = buffer_length(buffer);
    if (buffer->start > 0)
        memmove(buffer->bytes, buffer->bytes + buffer->start, length);
    buffer->start = 0;
    buffer->end = length;
    if (room == buffer->room)
        return true;
    char *bytes = realloc(buffer->bytes, room);
    if (bytes == NULL) {
        say("out of memory");
        return false;
    }
    buffer->bytes = bytes;
    buffer->room = room;
    return true;
}

bool buffer_reserve(struct buffer *buffer, size_t count) {
    size_t length = buffer_length(buffer);
    if (count <= buffer->room - buffer->end)
        return true;
    size_t room = length + count + (length < KEPT_ROOM ? length : length / 4);
    return buffer_resize(buffer, room > buffer->room ? room : buffer->room);
}

bool buffer_add(struct buffer *buffer, const void *bytes, size_t count) {
    if (count == 0)
        return true;
    if (!buffer_reserve(buffer, count))
        return false;
    memcpy(buffer->bytes + buffer->end, bytes, count);
    buffer->end += count;
    return true;
}

void buffer_drop(struct buffer *buffer, size_t count) {
    buffer->start += count;
    if (buffer->start < buffer->end)
        return;
    buffer->start = buffer->end = 0;
    if (buffer->room > KEPT_ROOM)
        buffer_free(buffer);
}

void buffer_trim(struct buffer *buffer, size_t needed) {
    size_t length = buffer_length(buffer), room = needed > length ? needed : length;
    if (room == 0)
        buffer_free(buffer);
    else if (buffer->room / 2 > room)
        buffer_resize(buffer, room);
}

bool buffer_write(struct buffer *buffer, int descriptor) {
    while (buffer_length(buffer) > 0) {
        ssize_t count = write(descriptor, buffer_front(buffer), buffer_length(buffer));
        if (count < 0)
            return errno == EAGAIN || errno == EINTR;
        buffer_drop(buffer, (size_t)count);
    }
    return true;
}

ssize_t buffer_write_with(struct buffer *buffer, int descriptor, const char *bytes, size_t length) {
    size_t waits = buffer_length(buffer);
    struct iovec parts[] = {{(char *)buffer_front(buffer), waits}, {(char *)bytes, length}};
    int skipped = waits == 0;
    ssize_t count = writev(descriptor, parts + skipped, 2 - skipped);
    if (count < 0)
        return errno == EAGAIN || errno == EINTR ? 0 : -1;
    size_t written = (size_t)count, of_buffer = written < waits ? written : waits;
    buffer_drop(buffer, of_buffer);
    return (ssize_t)(written - of_buffer);
}

void buffer_free(struct buffer *buffer) {
    free(buffer->bytes);
    *buffer = (struct buffer){0};
}
