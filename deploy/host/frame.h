/* Frames: arrays of bulk strings, "*COUNT\r\n" and for each string "$LENGTH\r\nBYTES\r\n". */
#ifndef FRAME_H
#define FRAME_H

#include "buffer.h"

#include <stdint.h>

/* A frame that has an address has at most 1,024 strings, so that what it carries has at most 1,023. */
enum {
    MOST_STRINGS = 1024,
    LONGEST_STRING = (16 << 20) + (64 << 10),
    LONGEST_FRAME = 32 << 20,
    LONGEST_ADDRESS = 32,
    LONGEST_HEAD = 64 + LONGEST_ADDRESS
};

enum found { MORE, FRAME, FAULT };

/* How far the bytes of a frame have been looked at. All zeros before a frame's first byte. */
struct scanner {
    size_t at;     /* behind the last whole part */
    size_t body;   /* where the first string begins; 0 before its place is known */
    size_t count;  /* the number of strings */
    size_t left;   /* how many of them are still to come */
    size_t need;   /* where the frame has not wholly come: how many bytes it has at least */
};

/*
 * Looks at the bytes from a frame's first one on, from where the last call stopped: MORE where the frame has not wholly
 * come, FRAME where it ends at `at`, FAULT where no frame begins so.
 */
enum found scan(struct scanner *scanner, const char *bytes, size_t length, size_t most_strings);

/* The place and the length of the string that begins at `at` of a frame that was found; `next` is the place behind. */
const char *string_at(const char *bytes, size_t at, size_t *length, size_t *next);

/* Writes a line such as "$5\r\n", and returns the place behind it. */
char *put_line(char *to, char type, size_t number);

/* Writes a frame's first bytes, at most LONGEST_HEAD: the number of its strings, and its address where it is not NULL.
 * How many they are. */
size_t put_head(char *head, size_t count, const char *address);

/* Reads a decimal number without sign and leading zeros. */
bool read_number(const char *digits, size_t length, uint64_t *number);

#endif
