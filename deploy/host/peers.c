#define _GNU_SOURCE
#include "peers.h"
#include "frame.h"
#include "say.h"

#include <inttypes.h>
#include <stdio.h>
#include <string.h>
#include <time.h>

enum {
    SECOND = 1000,      /* milliseconds */
    HEARD_LATELY = 3 * SECOND,
    MOST_LATE = 3       /* greetings that may have been on their way when this host started */
};

#define IDENTITY "%016" PRIx64
#define WHAT_TO_DO "Stop the process that has the wrong folder, and start node %" PRIu64 " with its own one. If that " \
    "folder is lost, the number must not be used again: see \"If a node is lost\" in docs/nodes.md."

/* Milliseconds of a clock that only goes on; never 0. */
static uint64_t now(void) {
    struct timespec time;
    clock_gettime(CLOCK_MONOTONIC, &time);
    return 1 + (uint64_t)time.tv_sec * SECOND + (uint64_t)time.tv_nsec / 1000000;
}

bool read_identity(const char *text, size_t length, uint64_t *identity) {
    *identity = 0;
    if (length != IDENTITY_DIGITS)
        return false;
    for (size_t at = 0; at < length; at++) {
        const char *digits = "0123456789abcdef", *digit = text[at] == 0 ? NULL : strchr(digits, text[at]);
        if (digit == NULL)
            return false;
        *identity = *identity << 4 | (uint64_t)(digit - digits);
    }
    return true;
}

/* Whether a stranger is to be named: for the first time, and as one of the first strangers of this number. */
static bool is_new_stranger(struct peer *peer, uint64_t identity) {
    for (unsigned place = 0; place < peer->stranger_count; place++) {
        if (peer->strangers[place] == identity)
            return false;
    }
    if (peer->stranger_count == MOST_STRANGERS)
        return false;
    peer->strangers[peer->stranger_count++] = identity;
    return true;
}

static enum hearing hear_stranger(struct peers *peers, uint64_t node, uint64_t identity) {
    struct peer *peer = &peers->nodes[node];
    if (!is_new_stranger(peer, identity))
        return STRANGE;
    if (node == peers->own)
        say("another process takes part as node %" PRIu64 ", this node's own number: its folder has the identity "
            IDENTITY ", and this node's folder has " IDENTITY ". Frames from it are dropped. " WHAT_TO_DO, node,
            identity, peers->identity, node);
    else
        say("node %" PRIu64 " is heard under the identity " IDENTITY ", but was first heard under " IDENTITY ", so "
            "frames from it under the second identity are dropped. Two processes use this number, or the node came "
            "back with another folder. " WHAT_TO_DO, node, identity, peer->identity, node);
    if (peer->stranger_count == MOST_STRANGERS)
        say("further identities of node %" PRIu64 " are dropped without a message", node);
    return STRANGE;
}

enum hearing peers_hear(struct peers *peers, uint64_t node, uint64_t identity) {
    struct peer *peer = &peers->nodes[node];
    if (node == peers->own)
        return identity == peers->identity ? HEARD : hear_stranger(peers, node, identity);
    if (peer->is_known && peer->identity != identity)
        return hear_stranger(peers, node, identity);
    if (!peer->is_known) {
        peer->is_known = true;
        peer->identity = identity;
        if (!peers_keep(peers))
            return UNKEPT;
    }
    peer->heard = now();
    return HEARD;
}

void peers_named(struct peers *peers, uint64_t node, uint64_t identity) {
    struct peer *peer = &peers->nodes[node];
    if (identity == peers->identity || peer->has_named)
        return;
    peer->has_named = true;
    say("node %" PRIu64 " drops all frames from this node: it first heard node %" PRIu64 " under the identity " IDENTITY
        ", and this node's folder has " IDENTITY ". Two processes use this number, or this folder is a new one in "
        "place of the node's own. " WHAT_TO_DO, node, peers->own, identity, peers->identity, peers->own);
}

void peers_echo(struct peers *peers) {
    if (++peers->echoes <= peers->greetings + MOST_LATE || peers->has_double)
        return;
    peers->has_double = true;
    say("another process takes part as node %" PRIu64 ", this node's own number, with a copy of its folder. The other "
        "nodes take the two for one node, so what was written may be lost. Stop the process with the copy at once",
        peers->own);
}

bool peers_must_tell(struct peers *peers, uint64_t node) {
    struct peer *peer = &peers->nodes[node];
    uint64_t time = now();
    if (node == peers->own || (peer->told != 0 && time - peer->told < SECOND))
        return false;
    peer->told = time;
    return true;
}

/* Whether a node was heard within the last seconds. */
static bool is_heard(const struct peer *peer, uint64_t time) {
    return peer->heard != 0 && time - peer->heard <= HEARD_LATELY;
}

bool peers_hears(const struct peers *peers, uint64_t node) {
    return node == peers->own || is_heard(&peers->nodes[node], now());
}

void peers_miss(struct peers *peers) {
    uint64_t time = now();
    for (uint64_t node = 0; node < MOST_NODES; node++) {
        struct peer *peer = &peers->nodes[node];
        if (peer->heard == 0 || peer->is_missed != is_heard(peer, time))
            continue;
        peer->is_missed = !peer->is_missed;
        say(peer->is_missed ? "node %" PRIu64 " has not been heard for three seconds"
            : "node %" PRIu64 " is heard again", node);
    }
}

/* Adds a number as a string of a frame. */
static size_t put_number(char *to, uint64_t number) {
    char digits[4];
    int count = snprintf(digits, sizeof digits, "%u", (unsigned)number % 1000);
    return (size_t)sprintf(to, "$%d\r\n%s\r\n", count, digits);
}

size_t peers_list(const struct peers *peers, char *strings, size_t *length) {
    uint64_t time = now();
    size_t count = 1;
    *length = put_number(strings, peers->own);
    for (uint64_t node = 0; node < MOST_NODES; node++) {
        if (is_heard(&peers->nodes[node], time)) {
            *length += put_number(strings + *length, node);
            count++;
        }
    }
    return count;
}
