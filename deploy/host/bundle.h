/* Frames that wait to be sent to a node as one message. The first of them stays where it lies as long as it is alone.
 * */
#ifndef BUNDLE_H
#define BUNDLE_H

#include "frame.h"

struct bundle {
    uint64_t node, count;
    const char *lone;        /* the only frame, or NULL: then `frames` has all */
    size_t lone_length;
    struct buffer frames;
};

/* The bytes of all frames. */
const char *bundle_bytes(const struct bundle *bundle, size_t *length);

/* Whether a frame of so many bytes may go with those that wait. */
bool bundle_has_room(const struct bundle *bundle, size_t length);

/* Adds a frame, which may not change before the bundle is emptied. False, with a message, where memory is refused. */
bool bundle_add(struct bundle *bundle, const char *frame, size_t length);

/* Forgets all frames. */
void bundle_empty(struct bundle *bundle);

#endif
