/*
 * Carries packets between machines that are network namespaces: relay MICROSECONDS NAMESPACE .. opens a TUN device with
 * the name `far` in each of these namespaces (those of `ip netns`). The machine of the Nth one has the address
 * 10.77.0.N. A packet goes to the device of the machine that it names, so many microseconds after it was read, and all
 * packets stay in order. The relay prints `ready` once the devices are there. At SIGTERM it prints these numbers, and
 * ends: the packets that were carried, how many of these went out more than 50 microseconds too late, by how many
 * microseconds the median was late and below which 99 of 100 were, and how many packets a machine did not take.
 */
#define _GNU_SOURCE
#include <errno.h>
#include <fcntl.h>
#include <linux/if_tun.h>
#include <net/if.h>
#include <poll.h>
#include <sched.h>
#include <signal.h>
#include <stdbool.h>
#include <stdint.h>
#include <stdio.h>
#include <stdlib.h>
#include <string.h>
#include <sys/ioctl.h>
#include <sys/timerfd.h>
#include <time.h>
#include <unistd.h>

enum { MOST_MACHINES = 16, LONGEST = 2048, ROOM = 1 << 13, AT_ONCE = 32, MICROSECOND = 1000, SECOND = 1000000000 };
enum { SPIN = 30 * MICROSECOND, LATE = 50 * MICROSECOND, MOST_LATE = 1000 };
enum { LONGEST_WAIT = 100 }; /* milliseconds; a signal may come just before a wait */

struct packet {
    int64_t due;
    size_t length;
    int to;
    unsigned char bytes[LONGEST];
};

/* The packets that wait, from `first` on; all wait equally long, so the first one is the next one. */
static struct packet waiting[ROOM];
static size_t first, count;
static struct pollfd polled[MOST_MACHINES + 1]; /* the devices, and behind them the timer */
static int machines;
static int64_t delay;
static long carried, late, refused, by_lateness[MOST_LATE + 1]; /* the last one by whole microseconds */
static volatile sig_atomic_t ends;

static void fail(const char *what) {
    fprintf(stderr, "relay: %s: %s\n", what, strerror(errno));
    exit(1);
}

static int64_t now(void) {
    struct timespec time;
    clock_gettime(CLOCK_MONOTONIC, &time);
    return (int64_t)time.tv_sec * SECOND + time.tv_nsec;
}

/* Opens the device of a namespace. It stays in the namespace in which it was opened. */
static int open_device(const char *name) {
    char path[256];
    struct ifreq request = {.ifr_flags = IFF_TUN | IFF_NO_PI};
    snprintf(path, sizeof path, "/run/netns/%s", name);
    int space = open(path, O_RDONLY | O_CLOEXEC);
    if (space < 0 || setns(space, CLONE_NEWNET) != 0)
        fail(path);
    close(space);
    int device = open("/dev/net/tun", O_RDWR | O_NONBLOCK | O_CLOEXEC);
    if (device < 0)
        fail("/dev/net/tun");
    strcpy(request.ifr_name, "far");
    if (ioctl(device, TUNSETIFF, &request) != 0)
        fail("no TUN device can be made");
    return device;
}

/* The place of the machine to which a packet goes, or -1 where it names none. */
static int place_of(const unsigned char *bytes, size_t length) {
    static const unsigned char front[3] = {10, 77, 0};
    if (length < 20 || bytes[0] >> 4 != 4 || memcmp(bytes + 16, front, sizeof front) != 0)
        return -1;
    return bytes[19] <= machines ? bytes[19] - 1 : -1;
}

/* Reads the packets that came from a machine, up to a limit. */
static void take(int from) {
    for (int turn = 0; turn < AT_ONCE && count < ROOM; turn++) {
        struct packet *packet = &waiting[(first + count) % ROOM];
        ssize_t length = read(polled[from].fd, packet->bytes, LONGEST);
        if (length < 0 && (errno == EAGAIN || errno == EIO || errno == EINTR)) /* EIO: the device is down */
            return;
        if (length < 0)
            fail("cannot read");
        packet->length = (size_t)length;
        packet->to = place_of(packet->bytes, packet->length);
        packet->due = now() + delay;
        count += packet->to >= 0;
    }
}

/* Hands over each packet whose time has come. */
static void send_due(void) {
    while (count > 0) {
        struct packet *packet = &waiting[first];
        int64_t lateness = now() - packet->due;
        if (lateness < 0)
            return;
        refused += write(polled[packet->to].fd, packet->bytes, packet->length) < 0;
        carried++;
        late += lateness > LATE;
        by_lateness[lateness / MICROSECOND < MOST_LATE ? lateness / MICROSECOND : MOST_LATE]++;
        first = (first + 1) % ROOM;
        count--;
    }
}

/* Waits for packets where there is room, and until shortly before the first one is due. */
static void wait_for_more(void) {
    int64_t until = count > 0 ? waiting[first].due - SPIN : 0;
    if (count > 0 && until <= now())
        return;
    struct itimerspec timer = {.it_value = {until / SECOND, until % SECOND}}; /* zero: the timer is off */
    if (timerfd_settime(polled[machines].fd, TFD_TIMER_ABSTIME, &timer, NULL) != 0)
        fail("cannot set the timer");
    int from = count < ROOM ? 0 : machines;
    if (poll(polled + from, (nfds_t)(machines + 1 - from), LONGEST_WAIT) < 0 && errno != EINTR)
        fail("cannot wait");
}

static void end(int number) {
    (void)number;
    ends = 1;
}

/* By how many microseconds the packet was late below which this share of all were. */
static int lateness_of(double share) {
    long below = 0;
    int microseconds = 0;
    while (microseconds < MOST_LATE && (double)(below += by_lateness[microseconds]) < share * (double)carried)
        microseconds++;
    return microseconds;
}

int main(int words_count, char **words) {
    machines = words_count - 2;
    if (machines < 1 || machines > MOST_MACHINES) {
        fprintf(stderr, "usage: relay MICROSECONDS NAMESPACE ..\n");
        return 2;
    }
    delay = atol(words[1]) * MICROSECOND;
    for (int n = 0; n < machines; n++)
        polled[n] = (struct pollfd){.fd = open_device(words[n + 2]), .events = POLLIN};
    polled[machines] = (struct pollfd){.fd = timerfd_create(CLOCK_MONOTONIC, TFD_CLOEXEC), .events = POLLIN};
    signal(SIGTERM, end);
    if (sched_setscheduler(0, SCHED_FIFO, &(struct sched_param){.sched_priority = 1}) != 0)
        fprintf(stderr, "relay: without real-time priority, delays may be longer on a busy machine\n");
    puts("ready");
    fflush(stdout);
    while (!ends) {
        for (int n = 0; n < machines; n++)
            take(n);
        send_due();
        wait_for_more();
    }
    printf("%ld %ld %d %d %ld\n", carried, late, lateness_of(0.5), lateness_of(0.99), refused);
    return 0;
}
