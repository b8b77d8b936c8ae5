/* The scheduler owns messages, time, disks and stops, and draws all from a seed. */
#ifndef SCHEDULER_H
#define SCHEDULER_H

#include "world.h"

/* Plays the run of a seed. The world then has its calls, its counts, and what was not as expected by itself; it is to
   be freed. */
void play(struct world *world, uint64_t seed, enum broken broken);

#endif
