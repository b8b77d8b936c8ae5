#ifndef STREAMS_H
#define STREAMS_H

#include <stdbool.h>

/* Where a standard stream is closed, the next file that is opened takes its number, and what is written to the stream
 * would go into that file, which may be the log. So `/dev/null` takes the place of each that is closed. False, with a
 * message, where it cannot be opened. */
bool streams_fill(void);

#endif
