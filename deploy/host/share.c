#include "share.h"

static size_t beyond_own(size_t held) {
    return held > OWN_ROOM ? held - OWN_ROOM : 0;
}

void share_count(struct share *share, struct part *part, size_t held) {
    share->counted -= part->counted;
    *part = (struct part){held, beyond_own(held)};
    share->counted += part->counted;
}

bool share_has(const struct share *share, const struct part *part, size_t more) {
    size_t grows = beyond_own(part->held + more) - part->counted;
    return grows == 0 || share->counted + share->gone + grows <= share->most / 4 * 3;
}

size_t share_gives(struct share *share, const struct part *part, size_t least, size_t most, uint64_t number) {
    size_t own = part->held < OWN_ROOM ? OWN_ROOM - part->held : 0, given = 0;
    bool is_next = share->first == 0 || share->first == number;
    if (own >= most || (is_next && share_has(share, part, most)))
        given = most;
    else if (own >= least)
        given = own;
    else if (share->first == 0)
        share->first = number;
    if (given > 0)
        share_leaves(share, number);
    return given;
}

void share_leaves(struct share *share, uint64_t number) {
    if (share->first == number)
        share->first = 0;
}

bool share_is_over(const struct share *share) {
    return share->counted > share->most;
}

void share_tick(struct share *share) {
    share->gone -= (share->gone + 63) / 64;
}
