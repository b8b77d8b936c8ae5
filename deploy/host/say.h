#ifndef SAY_H
#define SAY_H

/* Prints a line on standard error, with the program's name in front. */
void say(const char *format, ...) __attribute__((format(printf, 1, 2)));

#endif
