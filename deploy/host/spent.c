#include "spent.h"

#include <nats/nats.h>
#include <stddef.h>

enum {
    MOST_SPENT = 256,       /* with so many messages, they are destroyed */
    FULL_SPENT = 1 << 20    /* and with so many bytes in them */
};

static natsMsg *spent[MOST_SPENT];
static size_t count, bytes;

void spent_add(void *message) {
    spent[count++] = message;
    bytes += (size_t)natsMsg_GetDataLength(message);
    if (count == MOST_SPENT || bytes >= FULL_SPENT)
        spent_free();
}

void spent_free(void) {
    for (size_t place = 0; place < count; place++)
        natsMsg_Destroy(spent[place]);
    count = bytes = 0;
}
