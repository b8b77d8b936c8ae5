#include "watch.h"
#include "say.h"

#include <errno.h>
#include <string.h>

bool watch(int epoll, int descriptor, uint32_t source, uint32_t *watched, uint32_t wanted) {
    if (*watched == wanted)
        return true;
    int change = *watched == 0 ? EPOLL_CTL_ADD : wanted == 0 ? EPOLL_CTL_DEL : EPOLL_CTL_MOD;
    struct epoll_event event = {.events = wanted, .data.u32 = source};
    if (epoll_ctl(epoll, change, descriptor, &event) != 0) {
        say("cannot wait for a descriptor: %s", strerror(errno));
        return false;
    }
    *watched = wanted;
    return true;
}
