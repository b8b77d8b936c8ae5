#include "answer.h"

#include <string.h>

struct place {
    size_t at, length;
};

/* Finds the strings. The number of the longest one. */
static size_t find_strings(const struct answer *answer, struct place *found) {
    size_t longest = 0, at = answer->at;
    for (size_t string = 0; string < answer->strings; string++) {
        const char *bytes = string_at(answer->frame, at, &found[string].length, &at);
        found[string].at = (size_t)(bytes - answer->frame);
        if (found[string].length > found[longest].length)
            longest = string;
    }
    return longest;
}

void answer_join(struct answer *answer) {
    static struct place found[MOST_STRINGS];
    char *frame = answer->frame;
    size_t longest = find_strings(answer, found);
    size_t front = found[longest].at, behind = front + found[longest].length;
    for (size_t string = longest; string-- > 0;) {
        front -= found[string].length;
        memmove(frame + front, frame + found[string].at, found[string].length);
    }
    for (size_t string = longest + 1; string < answer->strings; string++) {
        memmove(frame + behind, frame + found[string].at, found[string].length);
        behind += found[string].length;
    }
    answer->bytes = frame + front;
    answer->length = behind - front;
}
