/* An answer of the node: strings at a place of a frame, whose bytes go to a client one after another. */
#ifndef ANSWER_H
#define ANSWER_H

#include "frame.h"

struct answer {
    char *frame;
    size_t at, strings, length;  /* the strings, with what is between them, have `length` bytes there */
    char *bytes;                 /* once they are joined: the first of their bytes, and `length` is how many they are */
};

/* Moves the strings together, around the longest one, which stays where it lies. */
void answer_join(struct answer *answer);

#endif
