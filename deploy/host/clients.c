#include "clients.h"
#include "input.h"
#include "listener.h"
#include "say.h"
#include "watch.h"

#include <errno.h>
#include <inttypes.h>
#include <string.h>
#include <unistd.h>

bool clients_open(struct clients *clients, int epoll, const char *address, const char *port) {
    clients->epoll = epoll;
    clients->listener = listener_open(address, port);
    return clients->listener >= 0;
}

bool clients_watch(struct clients *clients) {
    uint32_t wanted = clients->paused ? 0 : EPOLLIN;
    return watch(clients->epoll, clients->listener, LISTENER, &clients->listener_watched, wanted);
}

static size_t slot_of(const struct client *client) {
    return client->number % MOST_CLIENTS;
}

static void mark_due(struct clients *clients, struct client *client) {
    if (!client->is_due)
        clients->due[clients->due_count++] = client;
    client->is_due = true;
}

void clients_ready(struct clients *clients, size_t slot, uint32_t events) {
    clients->slots[slot]->events |= events;
    mark_due(clients, clients->slots[slot]);
}

static size_t free_slot(const struct clients *clients) {
    size_t slot = 0;
    while (slot < MOST_CLIENTS && clients->slots[slot] != NULL)
        slot++;
    return slot;
}

/* What the node still has of its commands counts for some time, since the node does not say when it has ended them.
 * */
static void free_client(struct clients *clients, struct client *client) {
    clients->slots[slot_of(client)] = NULL;
    while (clients->top > 0 && clients->slots[clients->top - 1] == NULL)
        clients->top--;
    clients->share.gone += client->unanswered;
    share_count(&clients->share, &client->part, 0);
    client_free(client);
}

void clients_accept(struct clients *clients) {
    int descriptor = listener_accept(clients->listener);
    if (descriptor < 0) {
        clients->paused = errno != EAGAIN && errno != EINTR && errno != ECONNABORTED;
        return;
    }
    size_t slot = free_slot(clients);
    if (slot == MOST_CLIENTS) {
        listener_turn_away(descriptor, "-ERR max number of clients reached\r\n");
        return;
    }
    struct client *client = client_new(++clients->opened * MOST_CLIENTS + slot, descriptor);
    if (client == NULL) {
        listener_turn_away(descriptor, "-ERR out of memory\r\n");
        return;
    }
    clients->slots[slot] = client;
    if (slot == clients->top)
        clients->top++;
    if (!watch(clients->epoll, descriptor, CLIENTS + (uint32_t)slot, &client->watched, EPOLLERR | EPOLLIN))
        free_client(clients, client);
}

/* A client that waits for room or for the node goes on as soon as others leave room: so it is served at each turn. */
static bool is_held_up(const struct client *client, const struct node *node) {
    return client->state == OPEN && (client->waits || node_is_full(node));
}

static bool serve(struct clients *clients, struct client *client, struct node *node) {
    client->is_due = false;
    if (!client_serve(client, node, &clients->share))
        return false;
    if (client->state == BROKEN) {
        bool told = client_leaves(client, node);
        free_client(clients, client);
        return told;
    }
    if (is_held_up(client, node))
        mark_due(clients, client);
    clients->held_up |= client->state == OPEN && node_is_full(node);
    uint32_t source = CLIENTS + (uint32_t)slot_of(client);
    return watch(clients->epoll, client->descriptor, source, &client->watched, client_wants(client, node));
}

/* Those that are held up come first at the next turn. */
bool clients_serve(struct clients *clients, struct node *node) {
    static struct client *served[MOST_CLIENTS];
    size_t count = clients->due_count;
    memcpy(served, clients->due, count * sizeof *served);
    clients->due_count = 0;
    clients->held_up = false;
    for (size_t turn = 0; turn < count; turn++) {
        if (!serve(clients, served[turn], node))
            return false;
    }
    return true;
}

/* Ends the connection that holds the most of what it is to send or to take: the most of all, or of those that are slow.
 */
static bool end_largest(struct clients *clients, bool slow) {
    struct client *largest = NULL;
    size_t most = OWN_ROOM;
    for (size_t slot = 0; slot < clients->top; slot++) {
        struct client *client = clients->slots[slot];
        if (client == NULL || client->in.room + client->out.room <= most || (slow && !client_is_slow(client)))
            continue;
        most = client->in.room + client->out.room;
        largest = client;
    }
    if (largest == NULL)
        return false;
    client_evict(largest);
    client_count(largest, &clients->share);
    mark_due(clients, largest);
    clients->crowded++;
    return true;
}

/* Counts what a client holds that got something, and ends connections while all hold too much. */
static void settle(struct clients *clients, struct client *client) {
    mark_due(clients, client);
    client_count(client, &clients->share);
    while (share_is_over(&clients->share) && (end_largest(clients, true) || end_largest(clients, false)))
        continue;
}

size_t clients_answer(struct clients *clients, uint64_t number, struct answer *answer, size_t room) {
    struct client *client = clients->slots[number % MOST_CLIENTS];
    size_t left = 0;
    if (client == NULL || client->number != number)
        return 0;
    if (answer->strings > 0)
        left = client_answer(client, answer, room);
    else if (client->state < CLOSING)
        client->state = CLOSING;
    settle(clients, client);
    return left;
}

void clients_keep(struct clients *clients, uint64_t number, const struct buffer *memory) {
    struct client *client = clients->slots[number % MOST_CLIENTS];
    client_keep(client, memory);
    settle(clients, client);
}

void clients_tick(struct clients *clients, const struct node *node) {
    clients->paused = false;
    share_tick(&clients->share);
    for (size_t slot = 0; slot < clients->top; slot++) {
        struct client *client = clients->slots[slot];
        if (client == NULL)
            continue;
        enum state before = client->state;
        if (client_tick(client, node, clients->patience))
            clients->late++;
        if (client->state != before)
            mark_due(clients, client);
    }
    if (clients->share.first != 0)
        end_largest(clients, true);
}

void clients_report(struct clients *clients) {
    if (clients->late + clients->crowded > clients->said)
        say("so far %" PRIu64 " clients were disconnected since they sent or took nothing for too long, and %" PRIu64
            " for the memory that they held", clients->late, clients->crowded);
    clients->said = clients->late + clients->crowded;
}

void clients_close(struct clients *clients) {
    while (clients->top > 0)
        free_client(clients, clients->slots[clients->top - 1]);
    close(clients->listener);
}
