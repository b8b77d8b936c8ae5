/* Small files of a folder, which are replaced as a whole: after a crash there is the old text or the new one. */
#ifndef KEPT_H
#define KEPT_H

#include <stdbool.h>
#include <stddef.h>
#include <sys/types.h>

/* Reads a file, of which at most `room` bytes are read: their number. -1 where there is no such file, and -2, with a
 * message, where it cannot be read. */
ssize_t kept_read(const char *folder, const char *name, char *text, size_t room);

/* Writes a file that only its owner may use: under another name, which is synced and then renamed, and syncs the
 * folder. False, with a message, where this fails. */
bool kept_write(const char *folder, const char *name, const char *text, size_t length);

#endif
