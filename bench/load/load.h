/* A load of calls over many connections: each has one call open at a time. */
#ifndef LOAD_H
#define LOAD_H

#include <stdbool.h>
#include <stddef.h>
#include <stdint.h>

/* A queue of bytes. The bytes from `start` to `end` wait. */
struct bytes {
    char *data;
    size_t start, end, room;
};

enum answer { NOT_YET, GOOD, BAD };

struct connection {
    int descriptor;
    struct bytes out, in;
    double began;            /* when its call began */
    /* Of HTTP/2 alone: */
    uint32_t stream;         /* that of the call that is open */
    const char *value;       /* what is still to be sent of the call, as windows allow */
    size_t unsent;
    int64_t window, stream_window, first_window;
    size_t consumed;         /* bytes that came since the other side's window was last widened */
    bool has_data;
};

/* The call: writes the value to the key, or reads the key where the value is NULL. */
struct call {
    const char *key, *value;
    size_t size;
};

struct protocol {
    void (*open)(struct connection *connection);
    void (*begin)(struct connection *connection, const struct call *call);
    enum answer (*take)(struct connection *connection);
};

extern const struct protocol resp, grpc;

void add(struct bytes *to, const void *data, size_t count);
void drop(struct bytes *from, size_t count);

static inline size_t waiting(const struct bytes *of) {
    return of->end - of->start;
}

#endif
