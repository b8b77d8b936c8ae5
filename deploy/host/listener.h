/* The port where clients connect. */
#ifndef LISTENER_H
#define LISTENER_H

/* Listens, and says at which port, since port 0 stands for any free one. The descriptor, or -1, with a message. */
int listener_open(const char *address, const char *port);

/* Accepts a connection: its descriptor, or -1, with errno. */
int listener_accept(int listener);

/* Refuses a connection by a line, and closes it. */
void listener_turn_away(int descriptor, const char *refusal);

#endif
