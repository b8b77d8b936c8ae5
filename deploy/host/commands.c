#include "commands.h"
#include "password.h"

#include <inttypes.h>
#include <stdio.h>
#include <stdlib.h>
#include <string.h>

enum {
    FULL_UNANSWERED = 1 << 20,  /* bytes of unanswered commands of a client; a longer command is handed on alone */
    FULL_CLIENT = 1 << 20,      /* with so many bytes waiting for a client, that client is not read */
    COST_OF_STRING = 64         /* bytes that the node needs for a string, and for a command, besides those in it */
};

bool commands_are_stopped(const struct client *client) {
    return buffer_length(&client->out) >= FULL_CLIENT;
}

bool commands_are_taken(const struct client *client, const struct node *node) {
    return client->asked - client->answered < MOST_UNANSWERED && client->unanswered < FULL_UNANSWERED
        && !commands_are_stopped(client) && !node_is_full(node);
}

/* Finds the next command: a frame, or the words of a line. */
static enum found next_command(struct client *client, const struct buffer *from, struct command *command,
                               const char **error) {
    const char *bytes = buffer_front(from);
    size_t length = buffer_length(from);
    struct scanner *scanner = &client->scanner;
    if (length > 0 && bytes[0] != '*') {
        scanner->need = length + 1;
        return read_line(bytes, length, &scanner->at, command, error);
    }
    enum found found = scan(scanner, bytes, length, MOST_STRINGS - 1);
    *error = "-ERR protocol\r\n";
    *command = (struct command){bytes + scanner->body, scanner->count, scanner->at - scanner->body, scanner->at};
    return found;
}

/* Whether a buffer of the client's has this command and next to nothing else. */
static bool is_alone(const struct client *client, const struct buffer *from, const struct command *command) {
    return from == &client->in && command->body == buffer_front(from) + client->scanner.body
        && command->used == buffer_length(from) && command->length >= from->room / 2;
}

/* A long command goes out from where it lies: its memory is the node's from now on, or else it is written at once. */
static bool send_command(struct client *client, struct buffer *from, struct node *node, const struct command *command,
                         size_t cost) {
    char address[LONGEST_ADDRESS];
    size_t lent = 0, count = command->count, length = command->length;
    snprintf(address, sizeof address, "client %" PRIu64, client->number);
    bool sent = is_alone(client, from, command) ? node_lend(node, address, count, command->body, length, &lent)
                                                : node_pass(node, address, count, command->body, length);
    if (lent > 0) {
        node_own(node, free, from->bytes, from->room - lent);
        *from = (struct buffer){0};
    }
    client->costs[client->asked++ % MOST_UNANSWERED] = (uint32_t)cost;
    client->unanswered += cost;
    return sent;
}

/* Hands a command to the node, or answers it, if the client has not given the password. One without words gets no
 * answer in Redis, and the node does not get it. */
static bool hand_on(struct client *client, struct buffer *from, struct node *node, struct command *command,
                    size_t cost) {
    const char *answer = command->count == 0 ? NULL : password_judge(&client->known, command);
    bool done = answer != NULL ? buffer_add(&client->out, answer, strlen(answer))
        : command->count == 0 || send_command(client, from, node, command, cost);
    buffer_drop(from, command->used);
    client->scanner = (struct scanner){0};
    return done;
}

bool commands_forward(struct client *client, struct buffer *from, struct node *node, struct share *share,
                      const char **error) {
    struct command command;
    client->found = FRAME;
    while (commands_are_taken(client, node)
           && (client->found = next_command(client, from, &command, error)) == FRAME) {
        size_t cost = command.length + COST_OF_STRING * (command.count + 1);
        bool fits = client->unanswered + cost <= FULL_UNANSWERED && share_has(share, &client->part, cost);
        if (client->unanswered > 0 && !fits)
            break;
        if (!hand_on(client, from, node, &command, cost))
            return false;
        client_count(client, share);
    }
    return true;
}
