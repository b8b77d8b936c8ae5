/*
 * The way to other nodes: messages of NATS. A message of node A to node B has the subject PREFIX.A.B.IDENTITY, with the
 * identity of A's folder, and one or more frames, one after another: those that were ready at the same time. A greeting
 * has no bytes. Once a second each node greets all others, with the subject PREFIX.A.all.IDENTITY. A node that drops
 * what comes from node B under another identity than the one under which it knows B tells B so, with the subject
 * PREFIX.A.B.IDENTITY.KNOWN.
 */
#ifndef BUS_H
#define BUS_H

#include "bundle.h"
#include "node.h"
#include "connection.h"
#include "peers.h"

enum { MOST_BUNDLES = 16 };

struct bus {
    struct connection connection;
    struct peers peers;
    const char *prefix, *node;
    struct bundle bundles[MOST_BUNDLES];
    uint64_t lost, lost_said;  /* frames that were dropped, and how many of them were reported */
};

/* Reads who this node is, and connects, or goes on trying in the background; this epoll descriptor waits for what
 * comes. False, with a message, where the folder's files are damaged or an option is refused. */
bool bus_open(struct bus *bus, int epoll, const struct bus_options *options, const char *node, const char *folder);

/* Reads and writes, and hands the frames that came to the node. `changed` and `readable` say what the host was woken
 * for. False where the connection is closed for good, where NATS refuses this node, or where something else failed. */
bool bus_serve(struct bus *bus, struct node *node, bool changed, bool readable);

/* A frame goes to a node, with the next flush at the latest: `count` strings, whose bytes are `body`. It may not change
 * before, and the head of its frame in front of it is overwritten. A frame that cannot be sent is dropped. */
void bus_send(struct bus *bus, uint64_t node, size_t count, char *body, size_t length);

/* Sends what waits. */
void bus_flush(struct bus *bus);

/* Writes what was sent and waits for NATS, as far as NATS takes it. */
void bus_write(struct bus *bus);

/* Greets all other nodes. */
void bus_greet(struct bus *bus);

/* Reports how many frames were dropped, where more were since the last report. */
void bus_report(struct bus *bus);

void bus_close(struct bus *bus);

#endif
