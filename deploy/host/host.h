/* The host of a node: what it has, and how its loop goes on. */
#ifndef HOST_H
#define HOST_H

#include "bus.h"
#include "clients.h"
#include "quorum.h"

/* What the loop goes on with: it runs, it was told to stop, the node ended, or something failed that was reported. */
enum course { RUNS, STOPS, ENDED, FAILS };

struct host {
    struct node node;
    struct clients clients;
    struct bus bus;
    struct quorum quorum;
    int epoll, signals, timer, greetings;
    uint64_t ticks;
    bool hurries;               /* the next turn waits for nothing: clients that were held up can go on */
};

/* Reads what the node wrote, and sends the frames that are whole where their addresses say. */
enum coming route_frames(struct host *host);

#endif
