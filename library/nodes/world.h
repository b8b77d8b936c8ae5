/* Five machines, the messages between them, and clients that read and write, in one process and without a clock. */
#ifndef WORLD_H
#define WORLD_H

#include "machine.h"
#include "register.h"

enum { MACHINES = 5, MOST_CLIENTS = 6, MOST_CALLS = 400, MOST_MESSAGES = 4096, MOST_NAMES = 3, MOST_STOPS = 4096 };

/* A connection of a client, over which one call is made. */
struct client {
  bool is_open;
  unsigned connection;
  uint8_t node;
  int call; /* its place in `calls`; -1 for a move */
};

/* A message on its way. When it was sent, its receiver had been started so often, and had got so many calls since. */
struct message {
  uint8_t from, to;
  unsigned due, starts, begun;
  struct bytes frame; /* as its receiver gets it */
};

/* For a picture: where a call was made, and after how many events it began, and was answered or given up. */
struct shown {
  int client;
  uint8_t node;
  unsigned began, ended;
};

/* For a picture: after how many events a machine stopped, and was started again. */
struct down {
  uint8_t machine;
  unsigned began, ended;
};

struct world {
  uint64_t random;
  char file[200]; /* the cluster file */
  struct machine machines[MACHINES + 1];     /* from 1 */
  unsigned starts[MACHINES + 1], begun[MACHINES + 1];
  struct message messages[MOST_MESSAGES];
  size_t message_count;
  size_t most;        /* if more messages wait, some are lost */
  struct client clients[MOST_CLIENTS + 1];   /* the last one moves objects */
  unsigned connections;
  struct call calls[MOST_CALLS];
  struct shown shown[MOST_CALLS]; /* of each call */
  int call_count;
  struct down downs[MOST_STOPS];  /* of the first stops */
  unsigned moment, now;
  unsigned slow;      /* how many messages of 256 are late */
  bool waits;         /* messages to a machine that is down are not lost, but come when it has had as many calls */
  unsigned rewrites;  /* after how many rounds of 256 a log is written anew */
  unsigned power;     /* how many stops of 256 are losses of power */
  unsigned stops, losses, moves, given_up, rewritings, asked;
  unsigned events;    /* frames that came to a machine, starts, and stops */
  char fault[200];    /* what went wrong, if something has */
};

/* Nobody waits for the client's call any more. */
void world_end_call(struct world *world, struct client *client);

/* The world as a run begins, with this number to draw from. */
void world_clear(struct world *world, uint64_t random);

/* A number below this one, drawn from the seed; and whether something happens that happens so often of 256. */
unsigned draw(struct world *world, unsigned below);
bool happens(struct world *world, unsigned often);

void world_fault(struct world *world, const char *what, unsigned number);

/* Opens the node of a machine. With `stops`, so many of 256 starts are stopped. */
void world_start(struct world *world, uint8_t number, unsigned stops);

/* Stops a machine. Its clients get no answer any more. */
void world_stop(struct world *world, uint8_t number);

/* The machine handles what has come, and carries out its tasks. So many of 256 rounds are stopped. */
void world_round(struct world *world, uint8_t number, unsigned stops);

/* The client with this connection, if it still waits, gets the frame as its answer. */
void world_answer(struct world *world, const struct frame *frame, unsigned connection);

/* A client begins a read, or a write of a value of this length, at a node that is up. */
void world_call(struct world *world, int client, uint8_t node, int name, bool is_write, unsigned length);

/* The client's connection ends. */
void world_leave(struct world *world, int client);

/* Node 1 is asked to move a name to some nodes. */
void world_move(struct world *world, int name);

/* Whether the message has to wait for its receiver. */
bool world_waits(const struct world *world, const struct message *message);

/* Gives a message to its receiver, if that is up; the message is no longer on its way unless it `stays`. */
void world_deliver(struct world *world, size_t place, bool stays);
void world_lose(struct world *world, size_t place);

bool world_has_calls(const struct world *world);
void world_free(struct world *world);

#endif
