/* The two files of a folder that say who this node is and who the others are. */
#define _GNU_SOURCE
#include "frame.h"
#include "kept.h"
#include "peers.h"
#include "say.h"

#include <errno.h>
#include <inttypes.h>
#include <stdio.h>
#include <string.h>
#include <sys/random.h>

enum {
    LONGEST_FILE = MOST_NODES * 24 + 64,
    LONGEST_LINE = 64
};

static const char sum_name[] = "checksum ";
enum { SUM_NAME = sizeof sum_name - 1, SUM_LINE = SUM_NAME + IDENTITY_DIGITS + 1 };

/* A checksum (FNV-1a), which is another one if a byte is changed. */
static uint64_t sum_of(const char *bytes, size_t length) {
    uint64_t sum = 0xcbf29ce484222325;
    for (size_t at = 0; at < length; at++)
        sum = (sum ^ (unsigned char)bytes[at]) * 0x100000001b3;
    return sum;
}

/* Each line is the number of a node and its identity; the last one is a checksum of those before. */
bool peers_keep(const struct peers *peers) {
    char text[LONGEST_FILE];
    size_t length = 0;
    for (unsigned node = 0; node < MOST_NODES; node++) {
        const struct peer *peer = &peers->nodes[node];
        if (peer->is_known)
            length += (size_t)snprintf(text + length, LONGEST_LINE, "%u %016" PRIx64 "\n", node, peer->identity);
    }
    uint64_t sum = sum_of(text, length);
    length += (size_t)snprintf(text + length, LONGEST_LINE, "%s%016" PRIx64 "\n", sum_name, sum);
    return kept_write(peers->folder, "peers", text, length);
}

/* Reads the line of a peer. The place behind it, or NULL where it is none. */
static const char *read_peer(struct peers *peers, const char *line, const char *end) {
    const char *space = memchr(line, ' ', (size_t)(end - line));
    uint64_t node, identity;
    if (space == NULL || !read_number(line, (size_t)(space - line), &node) || node >= MOST_NODES)
        return NULL;
    if (end - space < IDENTITY_DIGITS + 2 || !read_identity(space + 1, IDENTITY_DIGITS, &identity))
        return NULL;
    if (space[1 + IDENTITY_DIGITS] != '\n' || peers->nodes[node].is_known)
        return NULL;
    peers->nodes[node].is_known = true;
    peers->nodes[node].identity = identity;
    return space + IDENTITY_DIGITS + 2;
}

static bool read_peers(struct peers *peers, const char *text, size_t length) {
    uint64_t sum;
    if (length < SUM_LINE || text[length - 1] != '\n')
        return false;
    const char *line = text, *end = text + length - SUM_LINE;
    if (memcmp(end, sum_name, SUM_NAME) != 0 || !read_identity(end + SUM_NAME, IDENTITY_DIGITS, &sum))
        return false;
    if (sum != sum_of(text, length - SUM_LINE))
        return false;
    while (line != NULL && line < end)
        line = read_peer(peers, line, end);
    return line == end;
}

/* Reads the peers. False where the file is damaged or cannot be read. */
static bool open_peers(struct peers *peers, bool *found) {
    char text[LONGEST_FILE];
    ssize_t length = kept_read(peers->folder, "peers", text, sizeof text);
    *found = length >= 0;
    if (length == -1 || (length >= 0 && read_peers(peers, text, (size_t)length)))
        return true;
    if (length >= 0)
        say("%s/peers is damaged, so this node does not know under which identities it heard the other nodes. If you "
            "are sure that each node runs once and with its own folder, remove this file and start again",
            peers->folder);
    return false;
}

static bool make_identity(struct peers *peers) {
    char text[LONGEST_LINE];
    if (getrandom(&peers->identity, sizeof peers->identity, 0) != sizeof peers->identity) {
        say("cannot get random bytes: %s", strerror(errno));
        return false;
    }
    int length = snprintf(text, sizeof text, "%016" PRIx64 "\n", peers->identity);
    return kept_write(peers->folder, "identity", text, (size_t)length);
}

bool peers_open(struct peers *peers, const char *folder, const char *node) {
    char text[LONGEST_LINE];
    bool found;
    peers->folder = folder;
    if (!read_number(node, strlen(node), &peers->own) || !open_peers(peers, &found))
        return false;
    ssize_t length = kept_read(folder, "identity", text, sizeof text);
    if (length == -1 && !found)
        return make_identity(peers);
    bool good = length == IDENTITY_DIGITS + 1 && text[IDENTITY_DIGITS] == '\n'
        && read_identity(text, IDENTITY_DIGITS, &peers->identity);
    if (!good && length >= -1)
        say("%s/identity is %s. The other nodes have this node's identity in their files `peers`, behind the number "
            "%s: write it to the file, as a line of 16 hex digits", folder, length == -1 ? "missing" : "damaged", node);
    return good;
}
