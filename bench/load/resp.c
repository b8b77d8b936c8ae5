/* The protocol of Redis. */
#include "load.h"

#include <stdio.h>
#include <stdlib.h>
#include <string.h>

static void open_connection(struct connection *connection) {
    (void)connection;
}

static void begin(struct connection *connection, const struct call *call) {
    char head[128];
    size_t length = strlen(call->key);
    if (call->value == NULL) {
        add(&connection->out, head,
            (size_t)snprintf(head, sizeof head, "*2\r\n$3\r\nGET\r\n$%zu\r\n%s\r\n", length, call->key));
        return;
    }
    add(&connection->out, head, (size_t)snprintf(head, sizeof head, "*3\r\n$3\r\nSET\r\n$%zu\r\n%s\r\n$%zu\r\n", length,
                                                 call->key, call->size));
    add(&connection->out, call->value, call->size);
    add(&connection->out, "\r\n", 2);
}

static enum answer take(struct connection *connection) {
    struct bytes *in = &connection->in;
    const char *front = in->data + in->start;
    const char *line = waiting(in) == 0 ? NULL : memchr(front, '\n', waiting(in));
    if (line == NULL)
        return NOT_YET;
    size_t whole = (size_t)(line - front) + 1;
    if (*front == '$' && front[1] != '-')  // $-1 is nil, behind which no bytes come
        whole += strtoul(front + 1, NULL, 10) + 2;
    if (waiting(in) < whole)
        return NOT_YET;
    enum answer answer = *front == '-' ? BAD : GOOD;
    drop(in, whole);
    return answer;
}

const struct protocol resp = {open_connection, begin, take};
