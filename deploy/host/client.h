/* One client: a TCP connection on which commands come and answers go. */
#ifndef CLIENT_H
#define CLIENT_H

#include "answer.h"
#include "node.h"
#include "share.h"

enum { MOST_UNANSWERED = 1024 };  /* commands of one client that the node has not answered */

/*
 * The states of a connection, in order. Refused: its input was no command, or the rest of one may not come, and it is
 * told so after its answers. Done: its input has ended. Closing: nothing but what waits is written. Lingering: all is
 * written, and its input is thrown away, since closing with unread input would destroy the last answer. Broken: closed
 * at its next turn.
 */
enum state { OPEN, REFUSED, DONE, CLOSING, LINGERING, BROKEN };

struct client {
    uint64_t number;
    int descriptor;
    enum state state;
    const char *error;      /* what it is told where its input is refused */
    bool ended;             /* its input has ended */
    bool known;             /* it has given the password */
    bool waits;             /* for room for its command, of which nothing is read until then */
    enum found found;       /* MORE where what was read holds no whole command */
    struct buffer in, out;
    struct scanner scanner;
    uint64_t asked, answered;
    uint32_t costs[MOST_UNANSWERED];  /* the bytes of each unanswered command: of number N at place N % 1,024 */
    size_t unanswered;      /* their sum */
    struct part part;
    unsigned quiet, stuck;  /* ticks for which it has sent nothing of its command, and taken nothing of its answers */
    size_t untaken;         /* bytes of answers that it had not taken at the last tick, and those that came since */
    size_t credit;          /* bytes sent and taken, less what is expected in each tick in which it is waited for */
    uint32_t watched;       /* the events for which it is waited for */
    uint32_t events;        /* those that have happened since its last turn */
    bool is_due;            /* it is among those that are served at the next turn */
};

/* A client that has just connected. NULL, with a message, where memory is refused. */
struct client *client_new(uint64_t number, int descriptor);

/* Reads, hands whole commands to the node while it takes them, and writes. False where memory is refused. */
bool client_serve(struct client *client, struct node *node, struct share *share);

/* The events for which it has to be waited for now. */
uint32_t client_wants(const struct client *client, const struct node *node);

/*
 * Takes an answer to its oldest unanswered command, which lies in memory of `room` bytes. A long answer is written from
 * there. Gives how many bytes at its end were neither written nor copied, because they are most of that memory: then
 * `client_keep` has to get it.
 */
size_t client_answer(struct client *client, struct answer *answer, size_t room);

/* Takes memory over in which an answer waits, in the place of its empty output. */
void client_keep(struct client *client, const struct buffer *memory);

/* Its input is read no further, and it is told why once its commands are answered. */
void client_refuse(struct client *client, const char *error);

/* Ends it, since it holds memory that others need. */
void client_evict(struct client *client);

/* Whether it has lately sent and taken as little as no client does that is there and has a good connection. */
bool client_is_slow(const struct client *client);

/* Notes that it has sent or taken bytes. */
void client_moved(struct client *client, size_t count);

/* Counts how long it lets the host wait. True where it has just been ended, since that was longer than `patience`. */
bool client_tick(struct client *client, const struct node *node, unsigned patience);

/* Counts what it holds. */
void client_count(struct client *client, struct share *share);

/* Closes the connection, and tells a node that has heard of it. False where memory is refused. */
bool client_leaves(struct client *client, struct node *node);

void client_free(struct client *client);

#endif
