/* The commands of a client, on their way to the node. */
#ifndef COMMANDS_H
#define COMMANDS_H

#include "client.h"

/* Whether so many answers wait for a client that none of its commands is handed on. */
bool commands_are_stopped(const struct client *client);

/* Whether the node takes more commands of a client. */
bool commands_are_taken(const struct client *client, const struct node *node);

/* Hands the whole commands of a buffer on, as far as the node takes them. `found` says what the rest is: FRAME where
 * it was not looked at, or FAULT, with what the client is told. False where memory is refused. */
bool commands_forward(struct client *client, struct buffer *from, struct node *node, struct share *share,
                      const char **error);

#endif
