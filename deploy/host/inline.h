/* Inline commands: a line of words, as a person types it in place of a frame. */
#ifndef INLINE_H
#define INLINE_H

#include "frame.h"

/* The longest line, without its end. */
enum { LONGEST_INLINE = 64 << 10 };

/* A command: its strings as those of a frame, and how many bytes of the input it took. */
struct command {
    const char *body;
    size_t count, length, used;
};

/*
 * Reads the command that the first line holds: MORE where the line has not wholly come, FRAME where it has, FAULT, with
 * the line that the client is told, where it is no command. `looked` is how many bytes hold no end of a line. The
 * strings stay as they are until the next call.
 */
enum found read_line(const char *bytes, size_t length, size_t *looked, struct command *command, const char **error);

#endif
