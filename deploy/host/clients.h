/* The clients of a node. */
#ifndef CLIENTS_H
#define CLIENTS_H

#include "client.h"

enum { MOST_CLIENTS = 1000 };

struct clients {
    int epoll, listener;
    uint32_t listener_watched;
    bool paused;        /* no connection is accepted until the next tick, because the last try failed */
    struct client *slots[MOST_CLIENTS];
    uint64_t opened;    /* connections so far */
    size_t top;         /* all slots from this one on are free */
    struct client *due[MOST_CLIENTS];  /* the clients that are served at the next turn */
    size_t due_count;
    bool held_up;       /* at the last turn, some client could not go on because the node was full */
    struct share share;
    unsigned patience;  /* ticks for a client to send or to take something */
    uint64_t late, crowded, said;  /* connections that were ended as too slow, or for their memory; reported so far */
};

/* Listens, and has this epoll descriptor wait. */
bool clients_open(struct clients *clients, int epoll, const char *address, const char *port);

/* Waits for connections, unless none is accepted now. False where the system refuses it. */
bool clients_watch(struct clients *clients);

/* Notes what happened to the client of a slot. */
void clients_ready(struct clients *clients, size_t slot, uint32_t events);

/* Accepts a connection. */
void clients_accept(struct clients *clients);

/* Serves the clients that are due: those to which something happened, those that got an answer, and those that could
 * not go on at their last turn because of others. False where memory is refused. */
bool clients_serve(struct clients *clients, struct node *node);

/* Hands an answer to a client. Without strings the connection is closed behind what was written. Gives how many bytes
 * at the end of the answer wait for `clients_keep`, as `client_answer` does. */
size_t clients_answer(struct clients *clients, uint64_t number, struct answer *answer, size_t room);

/* Hands the memory over in which an answer to a client waits. */
void clients_keep(struct clients *clients, uint64_t number, const struct buffer *memory);

/* Counts how long clients let the host wait. */
void clients_tick(struct clients *clients, const struct node *node);

/* Reports how many connections were ended as too slow or for their memory, where more were since the last report. */
void clients_report(struct clients *clients);

void clients_close(struct clients *clients);

#endif
