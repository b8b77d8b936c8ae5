/* A login to NATS: a user and a password, which stand in a file, because all users of a machine can see a command line.
 * */
#ifndef LOGIN_H
#define LOGIN_H

#include <stdbool.h>

enum { LONGEST_LOGIN = 512 };

struct login {
    char *user, *password;     /* they lie in `bytes` */
    char bytes[LONGEST_LOGIN];
};

/* Reads the two lines of a file: a user and a password. False, with a message, where it has no two such lines, or where
 * all users of the machine may read or change it. */
bool read_login(struct login *login, const char *file);

#endif
