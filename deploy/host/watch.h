/* Waiting by epoll: what it costs depends on how many descriptors are ready, and not on how many there are. */
#ifndef WATCH_H
#define WATCH_H

#include <stdbool.h>
#include <stdint.h>
#include <sys/epoll.h>

/* What can be ready: one of these, or the client of a slot, whose number is added to CLIENTS. */
enum source { SIGNALS, TIMER, GREETINGS, FROM_NODE, TO_NODE, NATS_CHANGES, NATS_SOCKET, LISTENER, CLIENTS };

/* Waits for other events of a descriptor from now on. `watched` has those so far, and 0 where it is not waited for at
 * all. False, with a message, where the system refuses it. */
bool watch(int epoll, int descriptor, uint32_t source, uint32_t *watched, uint32_t wanted);

#endif
