#define _GNU_SOURCE
#include "listener.h"
#include "say.h"

#include <errno.h>
#include <netdb.h>
#include <netinet/in.h>
#include <netinet/tcp.h>
#include <stdbool.h>
#include <string.h>
#include <sys/socket.h>
#include <unistd.h>

enum { MOST_PENDING = 128 };  /* connections that wait to be accepted */

/* The port on which a socket listens. */
static int port_of(int listener) {
    struct sockaddr_storage bound;
    socklen_t size = sizeof bound;
    getsockname(listener, (struct sockaddr *)&bound, &size);
    return ntohs(bound.ss_family == AF_INET6 ? ((struct sockaddr_in6 *)&bound)->sin6_port
                                             : ((struct sockaddr_in *)&bound)->sin_port);
}

int listener_open(const char *address, const char *port) {
    struct addrinfo hints = {.ai_flags = AI_NUMERICHOST | AI_PASSIVE, .ai_socktype = SOCK_STREAM}, *found;
    int fault = getaddrinfo(address, port, &hints, &found), on = 1;
    if (fault != 0) {
        say("cannot listen on %s port %s: %s", address, port, gai_strerror(fault));
        return -1;
    }
    int listener = socket(found->ai_family, SOCK_STREAM | SOCK_NONBLOCK | SOCK_CLOEXEC, 0);
    setsockopt(listener, SOL_SOCKET, SO_REUSEADDR, &on, sizeof on);
    bool listens = bind(listener, found->ai_addr, found->ai_addrlen) == 0 && listen(listener, MOST_PENDING) == 0;
    freeaddrinfo(found);
    if (!listens) {
        say("cannot listen on %s port %s: %s", address, port, strerror(errno));
        return -1;
    }
    say("listening on %s port %d", address, port_of(listener));
    return listener;
}

int listener_accept(int listener) {
    int on = 1, descriptor = accept4(listener, NULL, NULL, SOCK_NONBLOCK | SOCK_CLOEXEC);
    if (descriptor < 0)
        return -1;
    setsockopt(descriptor, IPPROTO_TCP, TCP_NODELAY, &on, sizeof on);
    setsockopt(descriptor, SOL_SOCKET, SO_KEEPALIVE, &on, sizeof on);
    return descriptor;
}

void listener_turn_away(int descriptor, const char *refusal) {
    send(descriptor, refusal, strlen(refusal), MSG_NOSIGNAL);
    close(descriptor);
}
