/* The way of the node's frames: to clients, and to other nodes. */
#include "host.h"
#include "say.h"

#include <errno.h>
#include <string.h>

/* Hands the memory of the node's output over to a client, for which the last `left` bytes of an answer wait there.
 * What the node has written behind it moves to new memory. */
static bool hand_over(struct host *host, uint64_t number, const struct answer *answer, size_t left) {
    struct buffer *in = &host->node.in, behind = {0};
    size_t next = in->start + host->node.scanner.at;
    bus_flush(&host->bus);
    if (!buffer_add(&behind, in->bytes + next, in->end - next))
        return false;
    in->end = (size_t)(answer->bytes - in->bytes) + answer->length;
    in->start = in->end - left;
    clients_keep(&host->clients, number, in);
    *in = behind;
    host->node.scanner.at = 0;
    return true;
}

/* Sends a frame of the node where its address says. */
static bool route(struct host *host, char *frame, const struct scanner *found) {
    size_t length, next, room = host->node.in.room;
    uint64_t number;
    const char *address = string_at(frame, found->body, &length, &next);
    if (length > 7 && memcmp(address, "client ", 7) == 0 && read_number(address + 7, length - 7, &number)) {
        struct answer answer = {frame, next, found->count - 1, found->at - next, NULL};
        size_t left = clients_answer(&host->clients, number, &answer, room);
        return left == 0 || hand_over(host, number, &answer, left);
    }
    if (length > 5 && memcmp(address, "node ", 5) == 0 && read_number(address + 5, length - 5, &number)) {
        bus_send(&host->bus, number, found->count - 1, frame + next, found->at - next);
        return true;
    }
    say("the node program wrote what is no frame, or has no address");
    return false;
}

/* What is sent to nodes may lie in the memory that a frame leaves. */
static void drop_frame(struct host *host) {
    struct node *node = &host->node;
    if (node->scanner.at == buffer_length(&node->in))
        bus_flush(&host->bus);
    buffer_drop(&node->in, node->scanner.at);
    node->scanner = (struct scanner){0};
}

static bool route_whole(struct host *host) {
    struct node *node = &host->node;
    bool good = true;
    while (good && buffer_length(&node->in) > 0) {
        char *frame = node->in.bytes + node->in.start;
        enum found found = scan(&node->scanner, frame, buffer_length(&node->in), MOST_STRINGS);
        if (found == MORE)
            break;
        if (found == FAULT || node->scanner.count == 0) {
            say("the node program wrote what is no frame, or has no address");
            return false;
        }
        good = route(host, frame, &node->scanner);
        drop_frame(host);
    }
    bus_flush(&host->bus);
    return good;
}

enum coming route_frames(struct host *host) {
    enum coming coming = node_read(&host->node);
    return coming == FRAMES && !route_whole(host) ? HAS_FAILED : coming;
}
