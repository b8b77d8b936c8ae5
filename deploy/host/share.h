/*
 * The memory that clients may take together, counted in bytes: the room for what was read from a connection and for the
 * rest of a command that has begun, the commands that the node has not answered, and the answers that were not written
 * yet. Each connection has OWN_ROOM bytes of its own. What it holds beyond them counts for the limit.
 */
#ifndef SHARE_H
#define SHARE_H

#include <stdbool.h>
#include <stddef.h>
#include <stdint.h>

enum { OWN_ROOM = 64 << 10 };

struct share {
    size_t most;     /* so many bytes may count; commands may take three quarters of them, so that answers have room */
    size_t counted;  /* so many do */
    size_t gone;     /* bytes of unanswered commands whose connections have ended: fewer with each tick */
    uint64_t first;  /* the client that waits for room and gets it next; 0 where none waits */
};

/* A connection's part. */
struct part {
    size_t held, counted;
};

/* A connection holds so many bytes now. */
void share_count(struct share *share, struct part *part, size_t held);

/* Whether a connection may hold so many bytes more for its commands. */
bool share_has(const struct share *share, const struct part *part, size_t more);

/* How many bytes more a client may hold for its command: `most`, or all of its own if that is `least`, or 0. With 0 it
 * waits, and from then on one client after another gets room, beginning with the first that waits. */
size_t share_gives(struct share *share, const struct part *part, size_t least, size_t most, uint64_t number);

/* A client waits no longer. */
void share_leaves(struct share *share, uint64_t number);

/* Whether more bytes count than may. */
bool share_is_over(const struct share *share);

/* Half of the bytes of commands whose connections have ended are forgotten in some 44 ticks. */
void share_tick(struct share *share);

#endif
