/*
 * Makes calls to a store as fast as it answers: load PROTOCOL PORTS CLIENTS SIZE SECONDS CALLS KIND [KEYS FILE].
 * PROTOCOL is resp or grpc, PORTS are ports of the loopback address such as 7001,7002, SIZE is that of a value, and
 * KIND is write or read. Each client has a connection to one of the ports and makes one call after another, until the
 * time is over or so many calls were made. The keys are a hundred, in turn: key-0, key-1 .., or with KEYS in place of
 * key. It prints: calls, errors, seconds, the time of a call in milliseconds (the median, and below which 99 of 100
 * are), and the bytes that were sent and received. FILE gets the times of all calls in seconds, as doubles, the
 * shortest one first.
 */
#define _GNU_SOURCE
#include "load.h"

#include <arpa/inet.h>
#include <errno.h>
#include <fcntl.h>
#include <netinet/tcp.h>
#include <poll.h>
#include <stdio.h>
#include <stdlib.h>
#include <string.h>
#include <sys/socket.h>
#include <time.h>
#include <unistd.h>

enum { MOST_CLIENTS = 1024, MOST_TIMES = 1 << 22, ONE_READ = 1 << 18, KEYS = 100 };

struct load {
    const struct protocol *protocol;
    int clients;
    size_t size;
    double seconds;
    long most_calls;
    bool writes;
    const char *keys;          /* with what the name of each key begins */
    char *values;              /* random bytes; the value of a call begins somewhere in the first half */
    long begun, ended, errors;
    double *times;
    size_t sent, received;
};

void add(struct bytes *to, const void *data, size_t count) {
    if (to->room - to->end < count) {
        size_t length = waiting(to), room = 2 * (length + count);
        char *moved = malloc(room);
        if (moved == NULL)
            abort();
        if (length > 0)
            memcpy(moved, to->data + to->start, length);
        free(to->data);
        *to = (struct bytes){moved, 0, length, room};
    }
    if (count > 0)
        memcpy(to->data + to->end, data, count);
    to->end += count;
}

void drop(struct bytes *from, size_t count) {
    from->start += count;
    if (from->start == from->end)
        from->start = from->end = 0;
}

static double now(void) {
    struct timespec time;
    clock_gettime(CLOCK_MONOTONIC, &time);
    return (double)time.tv_sec + (double)time.tv_nsec / 1e9;
}

static void fail(const char *what) {
    fprintf(stderr, "load: %s: %s\n", what, strerror(errno));
    exit(1);
}

static void connect_to(struct connection *connection, int port) {
    struct sockaddr_in address = {.sin_family = AF_INET, .sin_port = htons((uint16_t)port)};
    int on = 1;
    address.sin_addr.s_addr = htonl(INADDR_LOOPBACK);
    connection->descriptor = socket(AF_INET, SOCK_STREAM, 0);
    if (connect(connection->descriptor, (struct sockaddr *)&address, sizeof address) != 0)
        fail("cannot connect");
    setsockopt(connection->descriptor, IPPROTO_TCP, TCP_NODELAY, &on, sizeof on);
    fcntl(connection->descriptor, F_SETFL, O_NONBLOCK);
}

static void write_out(struct load *load, struct connection *connection) {
    while (waiting(&connection->out) > 0) {
        struct bytes *out = &connection->out;
        ssize_t count = write(connection->descriptor, out->data + out->start, waiting(out));
        if (count < 0 && errno == EAGAIN)
            return;
        if (count < 0)
            fail("cannot write");
        load->sent += (size_t)count;
        drop(out, (size_t)count);
    }
}

/* The next call of a client, unless there were enough. Values differ, so that nothing can be stored but once. */
static void begin(struct load *load, struct connection *connection, double end) {
    char key[64];
    if (now() >= end || load->begun >= load->most_calls) {
        connection->began = 0;
        return;
    }
    snprintf(key, sizeof key, "%.40s-%ld", load->keys, load->begun % KEYS);
    const char *value = load->writes ? load->values + (size_t)load->begun * 61 % load->size : NULL;
    load->begun++;
    connection->began = now();
    load->protocol->begin(connection, &(struct call){key, value, load->size});
}

/* Takes what came. A connection whose call has an answer makes the next one. */
static void read_in(struct load *load, struct connection *connection, double end) {
    static char read_bytes[ONE_READ];
    ssize_t count = read(connection->descriptor, read_bytes, sizeof read_bytes);
    if (count < 0 && errno == EAGAIN)
        return;
    if (count <= 0)
        fail("the connection is lost");
    load->received += (size_t)count;
    add(&connection->in, read_bytes, (size_t)count);
    enum answer answer = load->protocol->take(connection);
    if (answer == NOT_YET || connection->began == 0)
        return;
    load->errors += answer == BAD;
    if (load->ended < MOST_TIMES)
        load->times[load->ended] = now() - connection->began;
    load->ended++;
    begin(load, connection, end);
}

static void run(struct load *load, struct connection *connections) {
    static struct pollfd polled[MOST_CLIENTS];
    double end = now() + load->seconds;
    for (int n = 0; n < load->clients; n++) {
        load->protocol->open(&connections[n]);
        begin(load, &connections[n], end);
        write_out(load, &connections[n]);
    }
    while (load->ended < load->begun) {
        for (int n = 0; n < load->clients; n++) {
            short writes = waiting(&connections[n].out) > 0 ? POLLOUT : 0;
            polled[n] = (struct pollfd){.fd = connections[n].descriptor, .events = (short)(POLLIN | writes)};
        }
        if (poll(polled, (nfds_t)load->clients, 30000) <= 0)
            fail("no answer for 30 seconds");
        for (int n = 0; n < load->clients; n++) {
            if (polled[n].revents & (POLLIN | POLLHUP | POLLERR))
                read_in(load, &connections[n], end);
            write_out(load, &connections[n]);
        }
    }
}

static int compare(const void *one, const void *other) {
    double a = *(const double *)one, b = *(const double *)other;
    return (a > b) - (a < b);
}

static void keep_times(const double *times, size_t count, const char *name) {
    FILE *file = fopen(name, "wb");
    if (file == NULL || fwrite(times, sizeof *times, count, file) != count || fclose(file) != 0)
        fail("cannot write the times");
}

static void report(struct load *load, double seconds, const char *file) {
    long count = load->ended < MOST_TIMES ? load->ended : MOST_TIMES;
    qsort(load->times, (size_t)count, sizeof *load->times, compare);
    double median = count > 0 ? load->times[count / 2] : 0, late = count > 0 ? load->times[count * 99 / 100] : 0;
    if (file != NULL)
        keep_times(load->times, (size_t)count, file);
    printf("%ld %ld %.3f %.3f %.3f %zu %zu\n", load->ended, load->errors, seconds, 1e3 * median, 1e3 * late, load->sent,
           load->received);
}

int main(int count, char **words) {
    static struct connection connections[MOST_CLIENTS];
    if (count != 8 && count != 10) {
        fprintf(stderr, "usage: load resp|grpc PORT,PORT CLIENTS SIZE SECONDS CALLS write|read [KEYS FILE]\n");
        return 2;
    }
    struct load load = {.protocol = strcmp(words[1], "grpc") == 0 ? &grpc : &resp,
                        .clients = atoi(words[3]),
                        .size = strtoul(words[4], NULL, 10),
                        .seconds = atof(words[5]),
                        .most_calls = atol(words[6]),
                        .writes = strcmp(words[7], "write") == 0,
                        .keys = count == 10 ? words[8] : "key"};
    load.values = malloc(2 * load.size);
    load.times = malloc(MOST_TIMES * sizeof *load.times);
    if (load.clients < 1 || load.clients > MOST_CLIENTS || load.size < 1 || load.values == NULL || load.times == NULL)
        return 2;
    for (size_t at = 0; at < 2 * load.size; at++)
        load.values[at] = (char)(random() >> 7);
    char *ports = words[2], *next = ports;
    for (int n = 0; n < load.clients; n++) {
        connect_to(&connections[n], (int)strtol(next, &next, 10));
        next = *next == ',' ? next + 1 : ports;
    }
    double began = now();
    run(&load, connections);
    report(&load, now() - began, count == 10 ? words[9] : NULL);
    return 0;
}
