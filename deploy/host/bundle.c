#include "bundle.h"

enum { FULL_BUNDLE = 64 << 10 };  /* a message of several frames has at most so many bytes */

const char *bundle_bytes(const struct bundle *bundle, size_t *length) {
    *length = bundle->lone != NULL ? bundle->lone_length : buffer_length(&bundle->frames);
    return bundle->lone != NULL ? bundle->lone : buffer_front(&bundle->frames);
}

bool bundle_has_room(const struct bundle *bundle, size_t length) {
    size_t before;
    bundle_bytes(bundle, &before);
    return bundle->count == 0 || before + length <= FULL_BUNDLE;
}

bool bundle_add(struct bundle *bundle, const char *frame, size_t length) {
    if (bundle->count++ == 0) {
        bundle->lone = frame;
        bundle->lone_length = length;
        return true;
    }
    const char *lone = bundle->lone;
    bundle->lone = NULL;
    return (lone == NULL || buffer_add(&bundle->frames, lone, bundle->lone_length))
        && buffer_add(&bundle->frames, frame, length);
}

void bundle_empty(struct bundle *bundle) {
    bundle->count = 0;
    bundle->lone = NULL;
    buffer_drop(&bundle->frames, buffer_length(&bundle->frames));
}
