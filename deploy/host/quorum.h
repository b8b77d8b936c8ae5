/*
 * Whether enough nodes are heard. The lines `nodes`, `n` and `k` of the cluster file say how many that takes. The node
 * program judges the file, and ends if it is wrong; of a file without these lines this says nothing.
 */
#ifndef QUORUM_H
#define QUORUM_H

#include "peers.h"

#include <time.h>

struct quorum {
    bool is_node[MOST_NODES];   /* the numbers of the line `nodes` */
    uint64_t nodes, n, k;       /* how many these are, and the numbers of the other two lines; 0 where there is none */
    time_t began;
    bool is_missed;             /* whether it was said that fewer than a quorum is heard */
};

/* Reads the lines of the cluster file. */
void quorum_read(struct quorum *quorum, const char *file);

/*
 * Says when fewer than a quorum of the nodes is heard, with those that are not, and when a quorum is heard again: each
 * once. In the first seconds nodes count as heard. As in the line `cluster_state` of INFO, a quorum is heard if each
 * layout that a name has before any move has one.
 */
void quorum_miss(struct quorum *quorum, const struct peers *peers);

#endif
