#ifndef OPTIONS_H
#define OPTIONS_H

#include "bus.h"

struct options {
    const char *node, *cluster, *folder, *address, *port, *program, *password;
    struct bus_options bus;
    long tick;     /* milliseconds from one tick to the next */
    long memory;   /* mebibytes that clients may take together */
    long timeout;  /* seconds for a client to send or to take something */
};

/* Reads the command line, and the login that it names. False, with a message or the usage printed, where one of them is
 * wrong. */
bool read_options(struct options *options, int count, char **words);

#endif
