/* etcd's protocol, as far as it takes to write and read a key: gRPC, which is messages of protobuf over HTTP/2. */
#include "load.h"

#include <arpa/inet.h>
#include <string.h>

enum { DATA = 0, HEADERS = 1, RESET = 3, SETTINGS = 4, PING = 6, GOAWAY = 7, WINDOW_UPDATE = 8 };
enum { END_STREAM = 1, ACK = 1, END_HEADERS = 4, HEAD = 9, LONGEST_FRAME = 16384, FIRST_WINDOW = 65535 };
enum { OWN_WINDOW = 1 << 30, INITIAL_WINDOW_SIZE = 4 };

static void add_frame(struct bytes *to, int type, int flags, uint32_t stream, const void *body, size_t length) {
    unsigned char head[HEAD] = {(unsigned char)(length >> 16), (unsigned char)(length >> 8), (unsigned char)length,
                                (unsigned char)type, (unsigned char)flags};
    uint32_t number = htonl(stream);
    memcpy(head + 5, &number, 4);
    add(to, head, HEAD);
    add(to, body, length);
}

static void widen(struct connection *connection, uint32_t count) {
    uint32_t number = htonl(count);
    add_frame(&connection->out, WINDOW_UPDATE, 0, 0, &number, 4);
}

static void open_connection(struct connection *connection) {
    static const char preface[] = "PRI * HTTP/2.0\r\n\r\nSM\r\n\r\n";
    unsigned char setting[6] = {0, INITIAL_WINDOW_SIZE};
    uint32_t window = htonl(OWN_WINDOW);
    memcpy(setting + 2, &window, 4);
    add(&connection->out, preface, sizeof preface - 1);
    add_frame(&connection->out, SETTINGS, 0, 0, setting, sizeof setting);
    widen(connection, OWN_WINDOW);
    connection->window = connection->first_window = FIRST_WINDOW;
    connection->stream = (uint32_t)-1;
}

static size_t put_text(char *to, const char *text) {
    size_t length = strlen(text);
    to[0] = (char)length;
    memcpy(to + 1, text, length);
    return length + 1;
}

/* A header of HPACK, of at most 126 bytes. Its name has this place in HPACK's table, or where that is 0 it is given. */
static size_t put_header(char *to, int place, const char *name, const char *value) {
    size_t at = 0;
    to[at++] = (char)(place < 15 ? place : 15);
    if (place >= 15)
        to[at++] = (char)(place - 15);
    if (place == 0)
        at += put_text(to + at, name);
    return at + put_text(to + at, value);
}

static size_t put_headers(char *to, const char *path) {
    size_t at = 0;
    to[at++] = (char)0x83; /* :method POST */
    to[at++] = (char)0x86; /* :scheme http */
    at += put_header(to + at, 4, NULL, path);
    at += put_header(to + at, 1, NULL, "localhost");
    at += put_header(to + at, 31, NULL, "application/grpc");
    at += put_header(to + at, 0, "te", "trailers");
    return at;
}

static size_t put_number(unsigned char *to, size_t number) {
    size_t at = 0;
    for (; number > 127; number >>= 7)
        to[at++] = (unsigned char)(number | 128);
    to[at++] = (unsigned char)number;
    return at;
}

/* The fields of protobuf: the key is the first one, and the value the second one, which comes behind this head. */
static size_t put_request(unsigned char *to, const struct call *call) {
    unsigned char *fields = to + 5;
    size_t at = 0, length = strlen(call->key);
    fields[at++] = 0x0a;
    at += put_number(fields + at, length);
    memcpy(fields + at, call->key, length);
    at += length;
    if (call->value != NULL) {
        fields[at++] = 0x12;
        at += put_number(fields + at, call->size);
    }
    uint32_t whole = htonl((uint32_t)(at + (call->value == NULL ? 0 : call->size)));
    to[0] = 0;
    memcpy(to + 1, &whole, 4);
    return at + 5;
}

/* Sends as much of the value as the windows let pass. */
static void send_value(struct connection *connection) {
    while (connection->unsent > 0) {
        int64_t most = connection->window < connection->stream_window ? connection->window : connection->stream_window;
        if (most <= 0)
            return;
        size_t length = connection->unsent < LONGEST_FRAME ? connection->unsent : LONGEST_FRAME;
        if ((int64_t)length > most)
            length = (size_t)most;
        int flags = length == connection->unsent ? END_STREAM : 0;
        add_frame(&connection->out, DATA, flags, connection->stream, connection->value, length);
        connection->value += length;
        connection->unsent -= length;
        connection->window -= (int64_t)length;
        connection->stream_window -= (int64_t)length;
    }
}

static void begin(struct connection *connection, const struct call *call) {
    char headers[256];
    unsigned char request[256];
    const char *path = call->value == NULL ? "/etcdserverpb.KV/Range" : "/etcdserverpb.KV/Put";
    size_t length = put_request(request, call);
    connection->stream += 2;
    connection->stream_window = connection->first_window - (int64_t)length;
    connection->window -= (int64_t)length;
    connection->has_data = false;
    add_frame(&connection->out, HEADERS, END_HEADERS, connection->stream, headers, put_headers(headers, path));
    add_frame(&connection->out, DATA, call->value == NULL ? END_STREAM : 0, connection->stream, request, length);
    connection->value = call->value;
    connection->unsent = call->value == NULL ? 0 : call->size;
    send_value(connection);
}

static uint32_t number_at(const unsigned char *bytes) {
    uint32_t number;
    memcpy(&number, bytes, 4);
    return ntohl(number);
}

static void take_settings(struct connection *connection, int flags, const unsigned char *body, size_t length) {
    if (flags & ACK)
        return;
    for (size_t at = 0; at + 6 <= length; at += 6) {
        if (body[at + 1] == INITIAL_WINDOW_SIZE) {
            int64_t window = number_at(body + at + 2);
            connection->stream_window += window - connection->first_window;
            connection->first_window = window;
        }
    }
    add_frame(&connection->out, SETTINGS, ACK, 0, NULL, 0);
}

/* Takes a frame. An answer without data is an error, which the headers tell. */
static enum answer take_frame(struct connection *connection, const unsigned char *frame, size_t length) {
    int type = frame[3], flags = frame[4];
    uint32_t stream = number_at(frame + 5);
    const unsigned char *body = frame + HEAD;
    if (type == SETTINGS)
        take_settings(connection, flags, body, length);
    else if (type == PING && !(flags & ACK))
        add_frame(&connection->out, PING, ACK, 0, body, length);
    else if (type == WINDOW_UPDATE && stream == 0)
        connection->window += number_at(body);
    else if (type == WINDOW_UPDATE && stream == connection->stream)
        connection->stream_window += number_at(body);
    else if (type == GOAWAY || type == RESET)
        return BAD;
    send_value(connection);
    if (stream != connection->stream || (type != DATA && type != HEADERS))
        return NOT_YET;
    connection->has_data |= type == DATA && length > 0;
    connection->consumed += type == DATA ? length : 0;
    if (connection->consumed > OWN_WINDOW / 2) {
        widen(connection, (uint32_t)connection->consumed);
        connection->consumed = 0;
    }
    return !(flags & END_STREAM) ? NOT_YET : connection->has_data ? GOOD : BAD;
}

static enum answer take(struct connection *connection) {
    struct bytes *in = &connection->in;
    while (waiting(in) >= HEAD) {
        const unsigned char *frame = (const unsigned char *)in->data + in->start;
        size_t length = (size_t)frame[0] << 16 | (size_t)frame[1] << 8 | frame[2];
        if (waiting(in) < HEAD + length)
            return NOT_YET;
        enum answer answer = take_frame(connection, frame, length);
        drop(in, HEAD + length);
        if (answer != NOT_YET)
            return answer;
    }
    return NOT_YET;
}

const struct protocol grpc = {open_connection, begin, take};
