#ifndef COMING_H
#define COMING_H

/* What came of looking for frames of the node: some may have come, none have, the node has ended, or something failed
 * that was reported. */
enum coming { FRAMES, NOTHING, HAS_ENDED, HAS_FAILED };

/* The status with which a node ends, and the host with it, if the log could not be written, synced or exchanged. The
 * unit of systemd does not start such a node again. */
enum { LOG_LOST = 3 };

#endif
