#include "client.h"
#include "commands.h"
#include "input.h"
#include "say.h"

#include <errno.h>
#include <inttypes.h>
#include <linux/sockios.h>
#include <stdio.h>
#include <stdlib.h>
#include <string.h>
#include <sys/epoll.h>
#include <sys/ioctl.h>
#include <sys/socket.h>
#include <unistd.h>

enum {
    MOST_WAITING = 64 << 20,   /* with so many bytes waiting for a client, it is disconnected */
    FULL_CREDIT = 64 << 10,
    LINGER = 20                /* ticks for a client to end its side, once all is written */
};

struct client *client_new(uint64_t number, int descriptor) {
    struct client *client = calloc(1, sizeof *client);
    if (client == NULL) {
        say("out of memory");
        return NULL;
    }
    client->number = number;
    client->descriptor = descriptor;
    client->credit = FULL_CREDIT;
    return client;
}

void client_count(struct client *client, struct share *share) {
    share_count(share, &client->part, client->in.room + client->out.room + client->unanswered);
    if (client->state != OPEN)
        share_leaves(share, client->number);
}

void client_refuse(struct client *client, const char *error) {
    client->state = REFUSED;
    client->error = error;
    client->waits = false;
    buffer_free(&client->in);
}

void client_evict(struct client *client) {
    if (client->state == OPEN && buffer_length(&client->out) == 0) {
        client_refuse(client, "-ERR no memory for this command; try again later\r\n");
        return;
    }
    client->state = BROKEN;
    buffer_free(&client->in);
    buffer_free(&client->out);
}

bool client_is_slow(const struct client *client) {
    return client->credit == 0;
}

void client_moved(struct client *client, size_t count) {
    client->credit = client->credit + count < FULL_CREDIT ? client->credit + count : FULL_CREDIT;
}

/* Writes what waits, and goes on to the next state where all that this one waits for has happened. */
static void write_output(struct client *client) {
    if ((client->state == REFUSED || client->state == DONE) && client->answered == client->asked) {
        bool told = client->state == DONE || buffer_add(&client->out, client->error, strlen(client->error));
        client->state = told ? CLOSING : BROKEN;
    }
    if (client->state < BROKEN && !buffer_write(&client->out, client->descriptor))
        client->state = BROKEN;
    if (client->state == CLOSING && buffer_length(&client->out) == 0) {
        shutdown(client->descriptor, SHUT_WR);
        client->state = LINGERING;
        client->quiet = 0;
    }
    buffer_trim(&client->out, 0);
}

/* Where so much waited for it that it was not read, and now does no longer, it is served once more. Nothing is written
 * behind the last look at what waits: it could then be neither read nor written to, and nobody would wait for it. */
bool client_serve(struct client *client, struct node *node, struct share *share) {
    uint32_t events = client->events;
    bool readable = events & (EPOLLIN | EPOLLHUP);
    client->events = 0;
    if (events & EPOLLERR || (events & EPOLLHUP && client->state < LINGERING))
        client->state = BROKEN;
    write_output(client);
    if (client->state == LINGERING && readable)
        input_discard(client);
    for (bool goes_on = true; goes_on && client->state == OPEN; readable = false) {
        if (!input_serve(client, node, share, readable))
            return false;
        bool was_full = commands_are_stopped(client);
        write_output(client);
        goes_on = was_full && !commands_are_stopped(client);
    }
    client_count(client, share);
    return true;
}

uint32_t client_wants(const struct client *client, const struct node *node) {
    bool reads = client->state == LINGERING || input_is_read(client, node);
    bool writes = buffer_length(&client->out) > 0;
    return EPOLLERR | (reads ? EPOLLIN : 0) | (writes ? EPOLLOUT : 0);
}

/* Copies the strings of a short answer. */
static void copy_answer(struct client *client, const struct answer *answer) {
    size_t length, at = answer->at;
    if (!buffer_reserve(&client->out, answer->length)) {
        client->state = BROKEN;
        return;
    }
    for (size_t string = 0; string < answer->strings; string++) {
        const char *bytes = string_at(answer->frame, at, &length, &at);
        buffer_add(&client->out, bytes, length);
        client->untaken += length;
    }
}

/* Writes a long answer from where it lies, behind what waits. */
static size_t write_answer(struct client *client, struct answer *answer, size_t room) {
    answer_join(answer);
    ssize_t written = buffer_write_with(&client->out, client->descriptor, answer->bytes, answer->length);
    if (written < 0) {
        client->state = BROKEN;
        return 0;
    }
    size_t left = answer->length - (size_t)written;
    client->untaken += answer->length;
    if (buffer_length(&client->out) == 0 && left >= room / 2)
        return left;
    if (!buffer_add(&client->out, answer->bytes + written, left))
        client->state = BROKEN;
    return 0;
}

size_t client_answer(struct client *client, struct answer *answer, size_t room) {
    size_t left = 0;
    if (client->answered < client->asked)
        client->unanswered -= client->costs[client->answered++ % MOST_UNANSWERED];
    if (client->state >= CLOSING)
        return 0;
    if (answer->length >= LONG)
        left = write_answer(client, answer, room);
    else
        copy_answer(client, answer);
    if (buffer_length(&client->out) > MOST_WAITING) {
        say("client %" PRIu64 " does not take its answers, and is disconnected", client->number);
        client->state = BROKEN;
    }
    return left;
}

void client_keep(struct client *client, const struct buffer *memory) {
    buffer_free(&client->out);
    client->out = *memory;
}

/* Notes what the client has taken since the last tick. Its side of the connection may have room for much. The system is
 * not asked about a client that had taken all before and has got nothing since. */
static void count_taken(struct client *client) {
    int unsent = 0;
    if (client->untaken == 0 && buffer_length(&client->out) == 0)
        return;
    ioctl(client->descriptor, SIOCOUTQ, &unsent);
    size_t untaken = buffer_length(&client->out) + (size_t)unsent;
    if (untaken < client->untaken) {
        client->stuck = 0;
        client_moved(client, client->untaken - untaken);
    }
    client->untaken = untaken;
}

bool client_tick(struct client *client, const struct node *node, unsigned patience) {
    if (client->state == LINGERING && ++client->quiet == LINGER)
        client->state = BROKEN;
    if (client->state >= LINGERING)
        return false;
    bool sends = buffer_length(&client->in) > 0 && input_is_read(client, node);
    bool takes = buffer_length(&client->out) > 0;
    count_taken(client);
    client->quiet = sends ? client->quiet + 1 : 0;
    client->stuck = takes ? client->stuck + 1 : 0;
    if (!sends && !takes)
        client->credit = FULL_CREDIT;
    client->credit -= client->credit < FULL_CREDIT / 10 ? client->credit : FULL_CREDIT / 10;
    if (client->stuck > patience)
        client->state = BROKEN;
    else if (client->quiet > patience)
        client_refuse(client, "-ERR timeout: the rest of the command did not come\r\n");
    return client->stuck > patience || client->quiet > patience;
}

bool client_leaves(struct client *client, struct node *node) {
    char address[LONGEST_ADDRESS];
    snprintf(address, sizeof address, "client %" PRIu64, client->number);
    return client->asked == 0 || node_send(node, address, 0, "", 0);
}

void client_free(struct client *client) {
    close(client->descriptor);
    buffer_free(&client->in);
    buffer_free(&client->out);
    free(client);
}
