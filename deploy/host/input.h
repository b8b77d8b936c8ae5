/* What a client sends: it is read while there is room for it, and goes to the node command by command. */
#ifndef INPUT_H
#define INPUT_H

#include "client.h"

/* Whether the host is ready to read from it. */
bool input_is_read(const struct client *client, const struct node *node);

/* Reads once, if there is something to read, and hands whole commands to the node while it takes more. False where
 * memory is refused. */
bool input_serve(struct client *client, struct node *node, struct share *share, bool readable);

/* Throws away what comes behind the end of all answers. */
void input_discard(struct client *client);

#endif
