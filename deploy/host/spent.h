/*
 * Messages of NATS whose bytes nobody needs any more. The library frees messages in a thread of its own. If they were
 * destroyed one by one, it would wake this thread for each of them; so they are destroyed many at once.
 */
#ifndef SPENT_H
#define SPENT_H

/* Takes a message, which is destroyed with others. */
void spent_add(void *message);

/* Destroys all that were taken. */
void spent_free(void);

#endif
