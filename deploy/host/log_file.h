/*
 * The log of a node in this process: the file `log` in its folder. Its names, its modes, its lock and the order of the
 * calls of the system are those of the program `casd`, so that each of the two can go on with what the other wrote.
 */
#ifndef LOG_FILE_H
#define LOG_FILE_H

#include <stdbool.h>
#include <stddef.h>
#include <stdint.h>

enum { LONGEST_PATH = 4096 };

struct log_file {
    int folder, file;  /* the folder, which is locked until the process ends, and the log */
    bool is_placed;    /* the folder was synced since the file got its name */
    char path[LONGEST_PATH], second[LONGEST_PATH];
};

/* What came of putting a new log in the place of the old one. UNWRITTEN: the new one could not be written, and the old
 * one is as it was. UNKNOWN: after a stop of the machine there may be either. */
enum exchange { EXCHANGED, UNWRITTEN, UNKNOWN };

/* Locks the folder, and opens its log, or makes it. False, with a message, where this fails; then all is as it was. */
bool log_open(struct log_file *log, const char *folder);

/* All bytes of the log, as memory that the system fills as it is used: a log may be longer than the memory that is
 * left. If they cannot be read then, the process ends with status 1. NULL, with a message, where this fails. */
const uint8_t *log_bytes(const struct log_file *log, size_t *length);

/* These bytes are used no longer. */
void log_forget(const uint8_t *bytes, size_t length);

/* Cuts off what stands behind the first `count` bytes, and says how many bytes that were. False, with a message, where
 * this fails. */
bool log_cut(struct log_file *log, uint64_t count);

/* Appends bytes. False, with a message, where this fails. Then the log may not be used any more. */
bool log_append(struct log_file *log, const char *bytes, size_t count);

/* Syncs the log, and the folder too, if the log is new there. False, with a message, where this fails. Then the log may
 * not be used any more: a later sync may succeed though bytes are lost. */
bool log_sync(struct log_file *log);

/* Puts a log with these bytes in the place of the old one, and says why this fails. */
enum exchange log_replace(struct log_file *log, const char *bytes, size_t count);

/* Says why the log is not written anew. */
void log_stays(const char *cause);

/* Removes what a stop may have left of a new log. */
void log_remove_second(struct log_file *log);

void log_close(struct log_file *log);

#endif
