#define _GNU_SOURCE
#include "connection.h"
#include "say.h"

#include <string.h>
#include <sys/epoll.h>
#include <unistd.h>

enum { READ_SIZE = 256 << 10 };

/* Wakes the loop, where another thread calls this. */
static void wake(struct connection *connection) {
    uint64_t one = 1;
    if (pthread_equal(pthread_self(), connection->loop))
        return;
    if (write(connection->wake, &one, sizeof one) < 0)
        return;  /* the counter is full, so that the loop wakes anyhow */
}

/* Waits no longer for the socket, which the library may close now: another descriptor may get its number then. */
static void forget_socket(struct connection *connection) {
    if (connection->socket_watched != 0)
        epoll_ctl(connection->epoll, EPOLL_CTL_DEL, connection->socket, NULL);
    connection->socket_watched = 0;
}

/* The library calls these where it begins and ends to use a socket, and where it wants to read and to write. What the
 * loop waits for changes before it waits the next time. */
static natsStatus attach(void **user, void *loop, natsConnection *nats, natsSock socket) {
    struct connection *connection = loop;
    (void)nats;
    *user = connection;
    pthread_mutex_lock(&connection->lock);
    connection->socket = (int)socket;
    connection->socket_watched = 0;
    connection->reads = true;
    connection->writes = false;
    pthread_mutex_unlock(&connection->lock);
    wake(connection);
    return NATS_OK;
}

static natsStatus want_read(void *user, bool wanted) {
    struct connection *connection = user;
    pthread_mutex_lock(&connection->lock);
    connection->reads = wanted;
    if (!wanted)
        forget_socket(connection);
    pthread_mutex_unlock(&connection->lock);
    wake(connection);
    return NATS_OK;
}

static natsStatus want_write(void *user, bool wanted) {
    struct connection *connection = user;
    pthread_mutex_lock(&connection->lock);
    connection->writes = wanted;
    pthread_mutex_unlock(&connection->lock);
    wake(connection);
    return NATS_OK;
}

static natsStatus detach(void *user) {
    struct connection *connection = user;
    pthread_mutex_lock(&connection->lock);
    forget_socket(connection);
    connection->socket = -1;
    pthread_mutex_unlock(&connection->lock);
    return NATS_OK;
}

const char *place_of(const char *url) {
    const char *user = strrchr(url, '@'), *scheme = strstr(url, "://");
    return user != NULL ? user + 1 : scheme != NULL ? scheme + 3 : url;
}

void connection_stood(natsConnection *nats, void *user) {
    struct connection *connection = user;
    char url[256] = "";
    pthread_mutex_lock(&connection->lock);
    connection->was_connected = true;
    pthread_mutex_unlock(&connection->lock);
    natsConnection_GetConnectedUrl(nats, url, sizeof url);
    say("connected to NATS at %s", place_of(url));
}

static void disconnected(natsConnection *nats, void *user) {
    (void)user;
    if (!natsConnection_IsClosed(nats))
        say("the connection to NATS is lost; trying again");
}

static void closed(natsConnection *nats, void *user) {
    struct connection *connection = user;
    (void)nats;
    pthread_mutex_lock(&connection->lock);
    connection->closed = true;
    pthread_mutex_unlock(&connection->lock);
    wake(connection);
}

/* Something went wrong. NATS does not permit something: the host does nothing that the node could do without. */
static void failed(natsConnection *nats, natsSubscription *subscription, natsStatus fault, void *user) {
    struct connection *connection = user;
    const char *reason = NULL;
    (void)subscription;
    natsConnection_GetLastError(nats, &reason);
    say("NATS: %s %s", natsStatus_GetText(fault), reason == NULL ? "" : reason);
    if (fault != NATS_NOT_PERMITTED)
        return;
    pthread_mutex_lock(&connection->lock);
    connection->refused = true;
    pthread_mutex_unlock(&connection->lock);
    wake(connection);
}

static natsStatus secure(natsOptions *to, const struct bus_options *from) {
    natsStatus status = NATS_OK;
    if (from->user != NULL)
        status = natsOptions_SetUserInfo(to, from->user, from->password);
    if (status == NATS_OK && from->credentials != NULL)
        status = natsOptions_SetUserCredentialsFromFiles(to, from->credentials, NULL);
    if (status == NATS_OK && from->authority != NULL)
        status = natsOptions_SetSecure(to, true);
    if (status == NATS_OK && from->authority != NULL)
        status = natsOptions_LoadCATrustedCertificates(to, from->authority);
    if (status == NATS_OK && from->certificate != NULL)
        status = natsOptions_LoadCertificatesChain(to, from->certificate, from->key);
    return status;
}

/*
 * Connections that are lost are tried again for ever; one that is silent for some seconds counts as lost. Without
 * SendAsap a thread of the library waits for a millisecond before it sends, which each message of a call would pay.
 */
natsStatus connection_settings(struct connection *connection, const struct bus_options *from) {
    natsOptions *to = connection->options;
    natsStatus status = natsOptions_SetServers(to, (const char *[]){from->url}, 1);
    if (status == NATS_OK)
        status = natsOptions_SetMaxReconnect(to, -1);
    if (status == NATS_OK)
        status = natsOptions_SetReconnectWait(to, 200);
    if (status == NATS_OK)
        status = natsOptions_SetPingInterval(to, 2000);
    if (status == NATS_OK)
        status = natsOptions_SetIOBufSize(to, READ_SIZE);
    if (status == NATS_OK)
        status = natsOptions_SetSendAsap(to, true);
    if (status == NATS_OK)
        status = natsOptions_SetRetryOnFailedConnect(to, true, connection_stood, connection);
    if (status == NATS_OK)
        status = natsOptions_SetReconnectedCB(to, connection_stood, connection);
    if (status == NATS_OK)
        status = natsOptions_SetDisconnectedCB(to, disconnected, connection);
    if (status == NATS_OK)
        status = natsOptions_SetClosedCB(to, closed, connection);
    if (status == NATS_OK)
        status = natsOptions_SetErrorHandler(to, failed, connection);
    if (status == NATS_OK)
        status = natsOptions_SetEventLoop(to, connection, attach, want_read, want_write, detach);
    return status == NATS_OK ? secure(to, from) : status;
}
