#define _GNU_SOURCE
#include "password.h"
#include "say.h"

#include <errno.h>
#include <fcntl.h>
#include <stdio.h>
#include <string.h>
#include <strings.h>
#include <sys/stat.h>
#include <unistd.h>

enum { LONGEST_PASSWORD = 512, MOST_WORDS = 5 };

/* What a node answers by an error, and by OK; it keeps no name of a connection. */
static const char refused[] = "$4\r\nAUTH\r\n$6\r\nnobody\r\n$0\r\n\r\n";
static const char accepted[] = "$6\r\nCLIENT\r\n$7\r\nSETNAME\r\n$1\r\n-\r\n";

static char password[LONGEST_PASSWORD + 1];
static size_t password_length;

struct word {
    const char *bytes;
    size_t length;
};

bool password_read(const char *file) {
    struct stat found;
    int descriptor = open(file, O_RDONLY | O_CLOEXEC);
    if (descriptor < 0 || fstat(descriptor, &found) != 0) {
        say("cannot read the password in %s: %s", file, strerror(errno));
        if (descriptor >= 0)
            close(descriptor);
        return false;
    }
    ssize_t count = read(descriptor, password, sizeof password);
    close(descriptor);
    const char *end = count > 0 ? memchr(password, '\n', (size_t)count) : NULL;
    password_length = end != NULL ? (size_t)(end - password) : count > 0 ? (size_t)count : 0;
    if (!S_ISREG(found.st_mode) || (found.st_mode & 077) != 0) {
        say("other users can read the password in %s; use chmod 600", file);
        return false;
    }
    if (password_length == 0 || password_length > LONGEST_PASSWORD) {
        say("the password in %s has no byte, or more than %d", file, LONGEST_PASSWORD);
        return false;
    }
    return true;
}

static bool is(const struct word *word, const char *text) {
    return word->length == strlen(text) && strncasecmp(word->bytes, text, word->length) == 0;
}

/* Whether a user has given the password. The time that it takes does not depend on the bytes of the password. */
static bool is_login(const struct word *user, const struct word *given) {
    unsigned char differs = given->length != password_length;
    for (size_t at = 0; at < given->length; at++)
        differs |= (unsigned char)(given->bytes[at] ^ password[at % password_length]);
    bool is_user = user == NULL || (user->length == 7 && memcmp(user->bytes, "default", 7) == 0);
    return is_user && differs == 0;
}

/* This command goes to the node in the place of another. */
static void replace(struct command *command, size_t count, const char *body) {
    *command = (struct command){.body = body, .count = count, .length = strlen(body), .used = command->used};
}

/* The words of the command with which a client gives the password; false where it does not. */
static bool find_login(const struct command *command, const struct word **user, const struct word **given) {
    static struct word words[MOST_WORDS];
    size_t at = 0;
    for (size_t word = 0; word < command->count && word < MOST_WORDS; word++)
        words[word].bytes = string_at(command->body, at, &words[word].length, &at);
    bool is_auth = (command->count == 2 || command->count == 3) && is(&words[0], "auth");
    bool is_hello = command->count >= MOST_WORDS && is(&words[0], "hello") && is(&words[2], "auth");
    *given = is_auth ? &words[command->count - 1] : &words[4];
    *user = is_hello ? &words[3] : command->count == 3 ? &words[1] : NULL;
    return is_auth || is_hello;
}

const char *password_judge(bool *known, struct command *command) {
    const struct word *user, *given;
    struct word first;
    size_t next;
    if (password_length == 0)
        return NULL;
    if (find_login(command, &user, &given)) {
        bool right = is_login(user, given), was_known = *known;
        *known = was_known || right;
        if (!right && !was_known)
            return "-WRONGPASS invalid username-password pair or user is disabled.\r\n";
        if (!right)
            replace(command, 3, refused);
        else if (command->count < MOST_WORDS)
            replace(command, 3, accepted);
        return NULL;
    }
    first.bytes = string_at(command->body, 0, &first.length, &next);
    if (*known || is(&first, "quit"))
        return NULL;
    return is(&first, "hello")
        ? "-NOAUTH HELLO must be called with the client already authenticated, otherwise the HELLO <proto> AUTH <user> "
          "<pass> option can be used to authenticate the client and select the RESP protocol version at the same "
          "time\r\n"
        : "-NOAUTH Authentication required.\r\n";
}
