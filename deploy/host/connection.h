/* The connection to NATS, which carries messages to other nodes and from them. */
#ifndef CONNECTION_H
#define CONNECTION_H

#include <nats/nats.h>
#include <pthread.h>
#include <stdbool.h>
#include <stddef.h>

/* The word that stands in a subject for all nodes, in place of one node's number. */
#define ALL "all"

enum {
    LONGEST_PREFIX = 64,
    LONGEST_SUBJECT = 160
};

struct bus_options {
    const char *url, *prefix, *user, *password, *credentials, *authority, *certificate, *key;
};

struct connection {
    natsOptions *options;
    natsConnection *nats;
    natsSubscription *to_node, *to_all;
    const char *url, *prefix, *node;
    unsigned tries;               /* how often a first connection was opened again */
    pthread_t loop;               /* the thread of the loop */
    pthread_mutex_t lock;         /* of all below, which the library changes from threads of its own */
    int epoll;                    /* which waits for the two descriptors below */
    int wake;                     /* an event descriptor that is written at each change */
    int socket;                   /* -1 while there is no connection */
    uint32_t wake_watched, socket_watched;  /* the events for which they are waited for */
    bool reads, writes, was_connected, closed;
    bool refused;                 /* NATS does not permit what the node needs */
};

/* The part of an URL that may be printed: without a user and a password. */
const char *place_of(const char *url);

/* Notes and says that a connection stands; the library calls it too. */
void connection_stood(natsConnection *nats, void *user);

/* Sets the options of the library, and what it calls at each change. */
natsStatus connection_settings(struct connection *connection, const struct bus_options *from);

/* Connects, or goes on trying in the background. False where an option is refused. */
bool connection_open(struct connection *connection, int epoll, const struct bus_options *options, const char *node);

/* Waits for what the library wants of its socket. False, with a message, where the system refuses it. */
bool connection_watch(struct connection *connection);

/* Writes, and reads. `changed` and `readable` say which of the two descriptors can be read. False where it cannot. */
bool connection_serve(struct connection *connection, bool changed, bool readable);

/* Writes what waits for NATS, as far as NATS takes it. */
void connection_write(struct connection *connection);

/* Takes the next message to this node, or to all nodes. NULL where none is left. */
natsMsg *connection_next(struct connection *connection);

/* False, with a message, where the connection is closed for good, or NATS does not permit what the node needs. */
bool connection_lasts(struct connection *connection);

/* Whether messages go to NATS at once, and do not wait for a connection. */
bool connection_stands(struct connection *connection);

/* Sends a message. False where it is dropped: too much waits already, or NATS takes no message of this length. */
bool connection_publish(struct connection *connection, const char *subject, const char *bytes, size_t length);

/* Does nothing where the connection was never opened. */
void connection_close(struct connection *connection);

#endif
