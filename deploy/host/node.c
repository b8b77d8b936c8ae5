#include "node.h"
#include "say.h"

enum { FULL_NODE = 1 << 20 };  /* with so many bytes waiting for the node, no client is read */

bool node_start(struct node *node, int epoll, const char *program, const char *file, const char *number,
                const char *folder) {
    node->is_program = program != NULL;
    return node->is_program ? child_start(&node->child, epoll, program, file, number, folder)
                            : embedded_open(&node->embedded, file, number, folder, &node->in);
}

/* A node in this process needs the frames that wait one behind another. */
bool node_lend(struct node *node, const char *address, size_t count, const char *body, size_t length, size_t *lent) {
    char head[LONGEST_HEAD];
    size_t before = node->out.length;
    if (!queue_add(&node->out, head, put_head(head, count, address)))
        return false;
    if (!(node->is_program ? queue_lend(&node->out, body, length, lent) : queue_add(&node->out, body, length)))
        return false;
    node->queued += node->out.length - before;
    return true;
}

void node_own(struct node *node, void (*release)(void *), void *owner, size_t idle) {
    queue_own(&node->out, release, owner, idle);
}

bool node_pass(struct node *node, const char *address, size_t count, const char *body, size_t length) {
    size_t lent = 0;
    if (!node_lend(node, address, count, body, length, &lent))
        return false;
    if (lent > 0)
        node_write(node);
    return lent == 0 || queue_settle(&node->out);
}

bool node_send(struct node *node, const char *address, size_t count, const char *body, size_t length) {
    char head[LONGEST_HEAD];
    size_t before = node->out.length;
    if (!queue_add(&node->out, head, put_head(head, count, address)) || !queue_add(&node->out, body, length))
        return false;
    node->queued += node->out.length - before;
    return true;
}

bool node_tick(struct node *node, size_t count, const char *heard, size_t length) {
    size_t unread = node->is_program ? child_unread(&node->child) : 0;
    if (node->tick_end > node->queued - node->out.length - unread)
        return true;
    if (!node_send(node, "tick", count, heard, length))
        return false;
    node->tick_end = node->queued;
    return true;
}

size_t node_holds(const struct node *node) {
    return queue_holds(&node->out);
}

bool node_is_full(const struct node *node) {
    return node_holds(node) >= FULL_NODE;
}

bool node_watch(struct node *node, int epoll) {
    return !node->is_program || child_watch(&node->child, epoll, node->out.length > 0);
}

void node_write(struct node *node) {
    if (node->is_program)
        child_write(&node->child, &node->out);
    else
        embedded_handle(&node->embedded, &node->out);
}

bool node_waits(const struct node *node) {
    return !node->is_program && node->out.length > 0;
}

enum coming node_read(struct node *node) {
    return node->is_program ? child_read(&node->child, &node->in, node->scanner.need)
                            : embedded_read(&node->embedded, &node->in);
}

void node_stop(struct node *node) {
    if (node->is_program)
        child_stop(&node->child);
    else
        embedded_close(&node->embedded);
    queue_free(&node->out);
    buffer_free(&node->in);
}

void node_say_end(const struct node *node) {
    if (node->is_program)
        child_say_end(&node->child);
    else
        say("the node ended with status %d", node->embedded.status);
}

int node_status(const struct node *node) {
    if (node->is_program)
        return child_status(&node->child);
    return node->embedded.status != 0 ? node->embedded.status : 1;
}
