#define _GNU_SOURCE
#include "connection.h"
#include "say.h"
#include "watch.h"

#include <errno.h>
#include <stdio.h>
#include <string.h>
#include <sys/eventfd.h>
#include <time.h>
#include <unistd.h>

enum {
    MOST_UNSENT = 32 << 20,       /* with so many bytes waiting for NATS, messages are dropped */
    MOST_TRIES = 20,              /* a first connection that the library gave up is tried so often again */
    TRY_WAIT = 200                /* milliseconds before each of these tries */
};

/* Subscribes to what other nodes send to this node, and to what they send to all nodes. */
static natsStatus subscribe(struct connection *connection) {
    char subject[LONGEST_SUBJECT];
    snprintf(subject, sizeof subject, "%s.*.%s.>", connection->prefix, connection->node);
    natsStatus status = natsConnection_SubscribeSync(&connection->to_node, connection->nats, subject);
    snprintf(subject, sizeof subject, "%s.*." ALL ".>", connection->prefix);
    return status == NATS_OK ? natsConnection_SubscribeSync(&connection->to_all, connection->nats, subject) : status;
}

/* Connects and subscribes, or goes on trying in the background. False where an option is refused. A connection that is
 * closed before it has its subscriptions is opened again by the loop. */
static bool open_once(struct connection *connection) {
    natsStatus status = natsConnection_Connect(&connection->nats, connection->options);
    if (status == NATS_OK)
        connection_stood(connection->nats, connection);
    else if (status == NATS_NOT_YET_CONNECTED && connection->tries == 0)
        say("NATS at %s does not answer yet, or refuses this node; trying again", place_of(connection->url));
    if (status == NATS_OK || status == NATS_NOT_YET_CONNECTED)
        status = subscribe(connection);
    if (status == NATS_OK || status == NATS_CONNECTION_CLOSED)
        return true;
    say("cannot use NATS at %s: %s", place_of(connection->url), nats_GetLastError(NULL));
    return false;
}

bool connection_open(struct connection *connection, int epoll, const struct bus_options *options, const char *node) {
    connection->epoll = epoll;
    connection->url = options->url;
    connection->prefix = options->prefix;
    connection->node = node;
    connection->socket = -1;
    connection->loop = pthread_self();
    connection->wake = eventfd(0, EFD_NONBLOCK | EFD_CLOEXEC);
    pthread_mutex_init(&connection->lock, NULL);
    if (!watch(epoll, connection->wake, NATS_CHANGES, &connection->wake_watched, EPOLLIN))
        return false;
    natsStatus status = natsOptions_Create(&connection->options);
    if (status == NATS_OK)
        status = connection_settings(connection, options);
    if (status == NATS_OK)
        return open_once(connection);
    say("cannot use NATS at %s: %s", place_of(options->url), nats_GetLastError(NULL));
    return false;
}

static void drop(struct connection *connection) {
    natsSubscription_Destroy(connection->to_node);
    natsSubscription_Destroy(connection->to_all);
    natsConnection_Destroy(connection->nats);
    connection->to_node = connection->to_all = NULL;
    connection->nats = NULL;
}

/*
 * The connection is closed for good. The library closes a first connection where the server refuses the node, and often
 * also where a busy server takes the connection and does not answer soon; it gives the same reason for both. So the
 * host opens a connection that never stood some times again, and then ends.
 */
static bool open_again(struct connection *connection) {
    const char *reason = "";
    natsConnection_GetLastError(connection->nats, &reason);
    pthread_mutex_lock(&connection->lock);
    bool ends = connection->was_connected || ++connection->tries > MOST_TRIES;
    connection->closed = ends;
    pthread_mutex_unlock(&connection->lock);
    if (ends) {
        say("the connection to NATS is closed: %s", reason);
        return false;
    }
    drop(connection);
    nanosleep(&(struct timespec){.tv_nsec = TRY_WAIT * 1000000L}, NULL);
    return open_once(connection);
}

bool connection_watch(struct connection *connection) {
    pthread_mutex_lock(&connection->lock);
    uint32_t wanted = (connection->reads ? EPOLLIN : 0) | (connection->writes ? EPOLLOUT : 0);
    bool good = connection->socket < 0
        || watch(connection->epoll, connection->socket, NATS_SOCKET, &connection->socket_watched, wanted);
    pthread_mutex_unlock(&connection->lock);
    return good;
}

static bool has_unsent(struct connection *connection) {
    pthread_mutex_lock(&connection->lock);
    bool writes = connection->writes;
    pthread_mutex_unlock(&connection->lock);
    return writes;
}

void connection_write(struct connection *connection) {
    if (has_unsent(connection))
        natsConnection_ProcessWriteEvent(connection->nats);
}

bool connection_serve(struct connection *connection, bool changed, bool readable) {
    uint64_t changes;
    if (changed && read(connection->wake, &changes, sizeof changes) < 0) {
        say("cannot read an event of NATS: %s", strerror(errno));
        return false;
    }
    if (readable)
        natsConnection_ProcessReadEvent(connection->nats);
    connection_write(connection);
    return true;
}

natsMsg *connection_next(struct connection *connection) {
    natsMsg *message = NULL;
    if (natsSubscription_NextMsg(&message, connection->to_node, 0) != NATS_OK
        && natsSubscription_NextMsg(&message, connection->to_all, 0) != NATS_OK)
        return NULL;
    return message;
}

bool connection_lasts(struct connection *connection) {
    pthread_mutex_lock(&connection->lock);
    bool closed = connection->closed, refused = connection->refused;
    pthread_mutex_unlock(&connection->lock);
    if (!refused)
        return !closed || open_again(connection);
    const char *prefix = connection->prefix, *node = connection->node;
    say("NATS does not permit what this node needs: its user has to be permitted to publish \"%s.%s.>\", and to "
        "subscribe to \"%s.*.%s.>\" and \"%s.*." ALL ".>\"", prefix, node, prefix, node, prefix);
    return false;
}

bool connection_stands(struct connection *connection) {
    return natsConnection_Status(connection->nats) == NATS_CONN_STATUS_CONNECTED;
}

bool connection_publish(struct connection *connection, const char *subject, const char *bytes, size_t length) {
    return natsConnection_Buffered(connection->nats) <= MOST_UNSENT
        && natsConnection_Publish(connection->nats, subject, bytes, (int)length) == NATS_OK;
}

void connection_close(struct connection *connection) {
    if (connection->options == NULL)
        return;
    drop(connection);
    natsOptions_Destroy(connection->options);
    nats_CloseAndWait(1000);
    close(connection->wake);
    pthread_mutex_destroy(&connection->lock);
}
