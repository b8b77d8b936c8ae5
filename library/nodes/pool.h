/* Memory for the simulation. It is linked with --wrap=malloc, --wrap=realloc and --wrap=free, so that all of it, also
   the nodes', comes from here: blocks of few sizes, which are used again as soon as they were given back. */
#ifndef POOL_H
#define POOL_H

#include <stddef.h>

/* How many blocks have been taken and not given back. */
size_t pool_blocks(void);

#endif
