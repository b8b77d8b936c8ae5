/* The password that clients have to give, if the host has one. */
#ifndef PASSWORD_H
#define PASSWORD_H

#include "inline.h"

/* Reads the password: the file's first line. False, with a message, where the file is not one that its owner alone
 * reads. */
bool password_read(const char *file);

/*
 * Looks at a client's command before it goes to the node. `known` says whether the client has given the password, and
 * is set where it does so now. Returns what the client is answered at once, if the command does not go to the node: as
 * long as the client is not known, none of its commands is there, so the order of its answers is kept. Returns NULL
 * where the command goes to the node, maybe with another one in its place that is answered as this one is to be.
 * Without a password each command goes there as it is.
 */
const char *password_judge(bool *known, struct command *command);

#endif
