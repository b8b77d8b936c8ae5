/*
 * The host of a node: moves frames between the node program, other nodes over NATS, and clients over TCP. It knows
 * frames and nothing of what they mean. It may lose frames of nodes, and starts nothing again that has ended.
 */
#define _GNU_SOURCE
#include "host.h"
#include "options.h"
#include "password.h"
#include "say.h"
#include "streams.h"
#include "watch.h"

#include <errno.h>
#include <inttypes.h>
#include <malloc.h>
#include <signal.h>
#include <stdlib.h>
#include <string.h>
#include <sys/signalfd.h>
#include <sys/timerfd.h>
#include <unistd.h>

enum { LARGE = 128 << 10, LARGE_OF_NODE = 4 << 20, SPARE_OF_NODE = 16 << 20 };
enum { TICKS_OF_A_REPORT = 100, GREETING = 1000 /* milliseconds */, MOST_READY = 256 };

/* A descriptor that can be read each time that so many milliseconds have passed, or -1. */
static int open_timer(long milliseconds) {
    int timer = timerfd_create(CLOCK_MONOTONIC, TFD_CLOEXEC | TFD_NONBLOCK);
    struct timespec every = {.tv_sec = milliseconds / 1000, .tv_nsec = milliseconds % 1000 * 1000000};
    return timerfd_settime(timer, 0, &(struct itimerspec){every, every}, NULL) == 0 ? timer : -1;
}

/* Waits for the input of a descriptor from now on. */
static bool watch_input(const struct host *host, int descriptor, enum source source) {
    uint32_t watched = 0;
    return watch(host->epoll, descriptor, source, &watched, EPOLLIN);
}

static bool open_events(struct host *host, long tick) {
    sigset_t wanted;
    sigemptyset(&wanted);
    sigaddset(&wanted, SIGTERM);
    sigaddset(&wanted, SIGINT);
    signal(SIGPIPE, SIG_IGN);
    pthread_sigmask(SIG_BLOCK, &wanted, NULL);
    host->epoll = epoll_create1(EPOLL_CLOEXEC);
    host->signals = signalfd(-1, &wanted, SFD_CLOEXEC | SFD_NONBLOCK);
    host->timer = open_timer(tick);
    host->greetings = open_timer(GREETING);
    if (host->epoll >= 0 && host->timer >= 0 && host->greetings >= 0 && host->signals >= 0)
        return watch_input(host, host->signals, SIGNALS) && watch_input(host, host->timer, TIMER)
            && watch_input(host, host->greetings, GREETINGS);
    say("cannot wait for signals and for time: %s", strerror(errno));
    return false;
}

/* Greets the other nodes where it is time to. */
static void greet(struct host *host) {
    uint64_t passed;
    if (read(host->greetings, &passed, sizeof passed) > 0)
        bus_greet(&host->bus);
}

/* Tells the node that time has passed, and which nodes were heard lately. */
static bool tick(struct host *host) {
    uint64_t passed;
    char heard[LONGEST_LIST];
    size_t length;
    if (read(host->timer, &passed, sizeof passed) < 0)
        return true;
    if (++host->ticks % TICKS_OF_A_REPORT == 0) {
        bus_report(&host->bus);
        clients_report(&host->clients);
    }
    clients_tick(&host->clients, &host->node);
    peers_miss(&host->bus.peers);
    quorum_miss(&host->quorum, &host->bus.peers);
    size_t count = peers_list(&host->bus.peers, heard, &length);
    return node_tick(&host->node, count, heard, length);
}

/* Waits until something is ready, and notes what: `ready` gets the events of each source but the clients. */
static enum course wait_for_events(struct host *host, uint32_t *ready) {
    static struct epoll_event events[MOST_READY];
    if (!node_watch(&host->node, host->epoll) || !connection_watch(&host->bus.connection)
        || !clients_watch(&host->clients))
        return FAILS;
    int count = epoll_wait(host->epoll, events, MOST_READY, host->hurries ? 0 : -1);
    if (count < 0 && errno != EINTR) {
        say("cannot wait for input: %s", strerror(errno));
        return FAILS;
    }
    for (int place = 0; place < count; place++) {
        uint32_t source = events[place].data.u32;
        if (source < CLIENTS)
            ready[source] = events[place].events;
        else
            clients_ready(&host->clients, source - CLIENTS, events[place].events);
    }
    return RUNS;
}

/* Serves the clients. What waits for a program is written before, since clients are read no more while much of it
 * waits. */
static bool serve_clients(struct host *host, bool accepts) {
    struct node *node = &host->node;
    if (node->is_program)
        node_write(node);
    if (accepts)
        clients_accept(&host->clients);
    return clients_serve(&host->clients, node);
}

static enum course course_of(enum coming coming) {
    return coming == HAS_ENDED ? ENDED : coming == HAS_FAILED ? FAILS : RUNS;
}

/* A node in this process handles what waits. What it writes goes out at once, and so before it syncs its log, if it
 * comes before that. */
static enum course run_node(struct host *host) {
    enum coming coming;
    node_write(&host->node);
    while ((coming = route_frames(host)) == FRAMES) {
        bus_write(&host->bus);
        if (!clients_serve(&host->clients, &host->node))
            return FAILS;
    }
    return course_of(coming);
}

/* Hands over what waits for the node, as far as the node takes it. The next turn waits for nothing if clients can go on
 * that were held up, or if frames still wait for a node in this process. */
static enum course serve_node(struct host *host) {
    struct node *node = &host->node;
    enum course course = RUNS;
    if (node->is_program)
        node_write(node);
    else
        course = run_node(host);
    host->hurries = (host->clients.held_up && !node_is_full(node)) || node_waits(node);
    return course;
}

/* One turn of the loop. */
static enum course turn(struct host *host) {
    uint32_t ready[CLIENTS] = {0};
    if (wait_for_events(host, ready) != RUNS)
        return FAILS;
    if (ready[SIGNALS] != 0)
        return STOPS;
    if (ready[GREETINGS] != 0)
        greet(host);
    enum course course = ready[FROM_NODE] != 0 ? course_of(route_frames(host)) : RUNS;
    bool served = (ready[TIMER] == 0 || tick(host))
        && bus_serve(&host->bus, &host->node, ready[NATS_CHANGES] != 0, ready[NATS_SOCKET] & ~(uint32_t)EPOLLOUT)
        && serve_clients(host, ready[LISTENER] != 0);
    if (course != RUNS)
        return course;
    return served ? serve_node(host) : FAILS;
}

/* Ends all, and says why. What failed has been reported before. */
static int stop(struct host *host, enum course course) {
    node_stop(&host->node);
    clients_report(&host->clients);
    clients_close(&host->clients);
    bus_close(&host->bus);
    close(host->signals);
    close(host->timer);
    close(host->greetings);
    close(host->epoll);
    if (course == STOPS)
        say("told to end");
    else if (course == FAILS)
        say("cannot go on, and ends");
    else
        node_say_end(&host->node);
    return course == STOPS ? 0 : node_status(&host->node);
}

/* A large piece of memory goes back to the system as soon as it is freed. Without this the C library keeps more and
 * more. A node in this process takes and frees pieces of a mebibyte again and again, and it takes long to get each from
 * the system: there only larger ones go back at once, and of the others some are kept. */
static void prepare(struct host *host, const struct options *options) {
    long patience = options->timeout * 1000 / options->tick;
    mallopt(M_MMAP_THRESHOLD, options->program != NULL ? LARGE : LARGE_OF_NODE);
    if (options->program == NULL)
        mallopt(M_TRIM_THRESHOLD, SPARE_OF_NODE);
    host->clients.share.most = (size_t)options->memory << 20;
    host->clients.patience = patience < 1 ? 1 : (unsigned)patience;
}

int main(int count, char **words) {
    static struct host host;
    struct options options;
    enum course course = RUNS;
    if (!read_options(&options, count, words))
        return 2;
    if (!streams_fill())
        return 1;
    if (options.password != NULL && !password_read(options.password))
        return 1;
    prepare(&host, &options);
    quorum_read(&host.quorum, options.cluster);
    if (!open_events(&host, options.tick)
        || !clients_open(&host.clients, host.epoll, options.address, options.port))
        return 1;
    if (!node_start(&host.node, host.epoll, options.program, options.cluster, options.node, options.folder))
        return node_status(&host.node);
    if (!bus_open(&host.bus, host.epoll, &options.bus, options.node, options.folder))
        course = FAILS;
    while (course == RUNS)
        course = turn(&host);
    return stop(&host, course);
}
