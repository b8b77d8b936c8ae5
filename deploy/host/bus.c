#define _GNU_SOURCE
#include "bus.h"
#include "say.h"
#include "spent.h"

#include <inttypes.h>
#include <stdio.h>
#include <string.h>

enum { MOST_FOR_NODE = 32 << 20 };  /* with so many bytes waiting for the node, frames from nodes are dropped */

/* What a message's subject says. */
struct subject {
    uint64_t from, identity;  /* the sender's number, and the identity of its folder */
    bool to_all, names;       /* whether it goes to all nodes, and whether it names this node's identity */
    uint64_t named;           /* the identity under which the sender knows this node */
};

bool bus_open(struct bus *bus, int epoll, const struct bus_options *options, const char *node, const char *folder) {
    bus->prefix = options->prefix;
    bus->node = node;
    if (!peers_open(&bus->peers, folder, node) || !connection_open(&bus->connection, epoll, options, node))
        return false;
    bus_greet(bus);
    return true;
}

/* The next part of a subject, which ends before a dot or at the end; `place` is behind it. */
static const char *next_part(const char **place, size_t *length) {
    const char *part = *place;
    *length = strcspn(part, ".");
    *place = part + *length + (part[*length] == '.');
    return part;
}

/* Reads the subject of a message. It came by one of the two subscriptions, so that it begins with the prefix and a dot.
 * False where it is none of a node. */
static bool read_subject(const struct bus *bus, const char *place, struct subject *subject) {
    size_t length;
    place += strlen(bus->prefix) + 1;
    const char *part = next_part(&place, &length);
    if (!read_number(part, length, &subject->from) || subject->from >= MOST_NODES)
        return false;
    part = next_part(&place, &length);
    subject->to_all = length == strlen(ALL) && memcmp(part, ALL, length) == 0;
    part = next_part(&place, &length);
    if (!read_identity(part, length, &subject->identity))
        return false;
    subject->names = !subject->to_all && place[0] != 0;
    if (!subject->names)
        return place[0] == 0;
    part = next_part(&place, &length);
    return read_identity(part, length, &subject->named) && place[0] == 0;
}

/* How many frames are one after another. What is no frame counts as one, and so does a message without bytes. */
static uint64_t frames_in(const char *bytes, size_t length) {
    uint64_t count = 0;
    enum found found = FRAME;
    for (size_t at = 0; found == FRAME && (at < length || count == 0); count++) {
        struct scanner scanner = {0};
        found = scan(&scanner, bytes + at, length - at, MOST_STRINGS - 1);
        at += scanner.at;
    }
    return count;
}

/* Hands the frames of a message to the node, with the sender as their address. Counts each that it drops. `lent` is
 * how many bytes stay where they lie. */
static bool hand_on(struct bus *bus, uint64_t from, const char *bytes, size_t length, struct node *node,
                    size_t *lent) {
    char address[LONGEST_ADDRESS];
    size_t at = 0;
    snprintf(address, sizeof address, "node %" PRIu64, from);
    while (at < length && node_holds(node) <= MOST_FOR_NODE) {
        struct scanner found = {0};
        const char *frame = bytes + at;
        if (scan(&found, frame, length - at, MOST_STRINGS - 1) != FRAME)
            break;
        if (!node_lend(node, address, found.count, frame + found.body, found.at - found.body, lent))
            return false;
        at += found.at;
    }
    if (at < length || length == 0)
        bus->lost += frames_in(bytes + at, length - at);
    return true;
}

/* Publishes on PREFIX.NODE.TO.IDENTITY, with what comes behind it. */
static bool publish(struct bus *bus, const char *to, const char *behind, const char *bytes, size_t length) {
    char subject[LONGEST_SUBJECT];
    snprintf(subject, sizeof subject, "%s.%s.%s.%016" PRIx64 "%s", bus->prefix, bus->node, to, bus->peers.identity,
             behind);
    return connection_publish(&bus->connection, subject, bytes, length);
}

/* Tells a node, whose messages this host drops, under which identity it is known here. */
static void tell_stranger(struct bus *bus, uint64_t node) {
    char to[24], behind[24];
    if (!peers_must_tell(&bus->peers, node))
        return;
    snprintf(to, sizeof to, "%" PRIu64, node);
    snprintf(behind, sizeof behind, ".%016" PRIx64, bus->peers.nodes[node].identity);
    publish(bus, to, behind, "", 0);
}

/* Takes a message: greetings say who the sender is, and others have frames. False where something failed. */
static bool take_message(struct bus *bus, natsMsg *message, struct node *node, size_t *lent) {
    struct subject subject;
    size_t length = (size_t)natsMsg_GetDataLength(message);
    const char *bytes = length == 0 ? "" : natsMsg_GetData(message);
    bool good = read_subject(bus, natsMsg_GetSubject(message), &subject);
    bool greets = good && (subject.to_all || subject.names);
    enum hearing hearing = good ? peers_hear(&bus->peers, subject.from, subject.identity) : STRANGE;
    if (hearing == UNKEPT)
        return false;
    if (hearing == STRANGE && good)
        tell_stranger(bus, subject.from);
    if (hearing == HEARD && !greets)
        return hand_on(bus, subject.from, bytes, length, node, lent);
    if (!greets || length > 0)
        bus->lost += frames_in(bytes, length);
    else if (hearing == HEARD && subject.from == bus->peers.own && subject.to_all)
        peers_echo(&bus->peers);
    else if (hearing == HEARD && subject.names)
        peers_named(&bus->peers, subject.from, subject.named);
    return true;
}

/* A message in which long frames lie is freed when the node has them, and any other one now. */
bool bus_serve(struct bus *bus, struct node *node, bool changed, bool readable) {
    bool good = connection_serve(&bus->connection, changed, readable);
    natsMsg *message;
    while (good && (message = connection_next(&bus->connection)) != NULL) {
        size_t lent = 0;
        good = take_message(bus, message, node, &lent);
        if (lent > 0)
            node_own(node, spent_add, message, (size_t)natsMsg_GetDataLength(message) - lent);
        else
            spent_add(message);
    }
    return good && connection_lasts(&bus->connection);
}

/* Sends the frames that wait for a node as one message, or drops them. */
static void send_bundle(struct bus *bus, struct bundle *bundle) {
    char to[24];
    size_t length;
    const char *bytes = bundle_bytes(bundle, &length);
    snprintf(to, sizeof to, "%" PRIu64, bundle->node);
    if (!publish(bus, to, "", bytes, length))
        bus->lost += bundle->count;
    bundle_empty(bundle);
}

void bus_flush(struct bus *bus) {
    for (size_t place = 0; place < MOST_BUNDLES; place++) {
        if (bus->bundles[place].count > 0)
            send_bundle(bus, &bus->bundles[place]);
    }
}

void bus_write(struct bus *bus) {
    connection_write(&bus->connection);
}

/* The frames that wait for a node, or an empty bundle for it. */
static struct bundle *bundle_for(struct bus *bus, uint64_t node) {
    struct bundle *empty = NULL;
    for (size_t place = 0; place < MOST_BUNDLES; place++) {
        struct bundle *bundle = &bus->bundles[place];
        if (bundle->count > 0 && bundle->node == node)
            return bundle;
        if (bundle->count == 0)
            empty = bundle;
    }
    if (empty == NULL) {
        bus_flush(bus);
        empty = &bus->bundles[0];
    }
    empty->node = node;
    return empty;
}

void bus_send(struct bus *bus, uint64_t node, size_t count, char *body, size_t length) {
    char head[LONGEST_HEAD];
    struct bundle *bundle = bundle_for(bus, node);
    size_t size = put_head(head, count, NULL);
    memcpy(body - size, head, size);
    if (!bundle_has_room(bundle, size + length))
        send_bundle(bus, bundle);
    if (bundle_add(bundle, body - size, size + length))
        return;
    bus->lost += bundle->count;
    bundle_empty(bundle);
}

void bus_greet(struct bus *bus) {
    if (connection_stands(&bus->connection) && publish(bus, ALL, "", "", 0))
        bus->peers.greetings++;
}

void bus_report(struct bus *bus) {
    if (bus->lost > bus->lost_said)
        say("%" PRIu64 " frames of nodes were dropped so far", bus->lost);
    bus->lost_said = bus->lost;
}

void bus_close(struct bus *bus) {
    bus_report(bus);
    spent_free();
    connection_close(&bus->connection);
    for (size_t place = 0; place < MOST_BUNDLES; place++)
        buffer_free(&bus->bundles[place].frames);
}
