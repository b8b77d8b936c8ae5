#include "options.h"
#include "login.h"
#include "say.h"

#include <getopt.h>
#include <stdarg.h>
#include <stdio.h>
#include <stdlib.h>
#include <string.h>

enum { LONGEST_LINE = 1024 };

static char name[64] = "host";

static const char usage[] =
    "usage: casd-host --node NUMBER --cluster FILE --folder FOLDER [OPTION ..]\n"
    "  --listen ADDRESS          where clients connect: a numeric address (127.0.0.1)\n"
    "  --port PORT               (6379; 0 takes any free port, which is printed)\n"
    "  --client-password FILE    what clients have to give by AUTH: the first line of FILE, whose mode is 0600\n"
    "  --program PATH            a node program, started as PATH FILE NUMBER FOLDER (the node runs in this process)\n"
    "  --client-memory MEBIBYTES  what clients may hold together (128; at least 64)\n"
    "  --client-timeout SECONDS  for a client to send more of a command, or to take more of an answer (60)\n"
    "  --tick MILLISECONDS       from one tick to the next (100)\n"
    "  --nats URL                (nats://127.0.0.1:4222)\n"
    "  --subject PREFIX          messages of node A have subjects that begin with PREFIX.A (cas)\n"
    "  --nats-login FILE         a file of two lines, a user and a password\n"
    "  --nats-credentials FILE   a file of credentials as NATS' tool nsc writes it\n"
    "  --nats-ca FILE            uses TLS, and trusts the certificates in FILE\n"
    "  --nats-certificate FILE   this node's certificate\n"
    "  --nats-key FILE           this node's key\n";

/* One write for each line, since several threads and the node program write to the same place. */
void say(const char *format, ...) {
    char line[LONGEST_LINE];
    va_list values;
    int start = snprintf(line, sizeof line, "%s: ", name);
    va_start(values, format);
    vsnprintf(line + start, sizeof line - (size_t)start, format, values);
    va_end(values);
    fprintf(stderr, "%s\n", line);
}

static bool is_number(const char *word, uint64_t most) {
    uint64_t number;
    return read_number(word, strlen(word), &number) && number <= most;
}

/* A number from `least` to `most`, or 0 where the word is none. */
static long number_of(const char *word, long least, long most) {
    long number = is_number(word, (uint64_t)most) ? strtol(word, NULL, 10) : 0;
    return number >= least ? number : 0;
}

/* Words that become parts of a subject hold none of the characters that have a meaning there. */
static bool is_sound(const struct options *options) {
    if (options->node == NULL || options->cluster == NULL || options->folder == NULL)
        return false;
    if (!is_number(options->node, MOST_NODES - 1) || !is_number(options->port, UINT16_MAX) || options->tick < 1)
        return false;
    if (options->memory == 0 || options->timeout == 0)
        return false;
    if ((options->bus.certificate == NULL) != (options->bus.key == NULL))
        return false;
    return strcspn(options->bus.prefix, ".*> \t\r\n") == strlen(options->bus.prefix) && options->bus.prefix[0] != 0
        && strlen(options->bus.prefix) <= LONGEST_PREFIX;
}

bool read_options(struct options *options, int count, char **words) {
    static struct login login;
    const char *tick = "100", *memory = "128", *timeout = "60", *login_file = NULL;
    *options = (struct options){.address = "127.0.0.1", .port = "6379",
                                .bus = {.url = "nats://127.0.0.1:4222", .prefix = "cas"}};
    const char **values[] = {&options->node, &options->cluster, &options->folder, &options->address, &options->port,
                             &options->program, &tick, &options->bus.url, &options->bus.prefix,
                             &options->bus.credentials, &options->bus.authority, &options->bus.certificate,
                             &options->bus.key, &memory, &timeout, &login_file, &options->password};
    static const struct option known[] = {
        {"node", 1, NULL, 0}, {"cluster", 1, NULL, 0}, {"folder", 1, NULL, 0}, {"listen", 1, NULL, 0},
        {"port", 1, NULL, 0}, {"program", 1, NULL, 0}, {"tick", 1, NULL, 0}, {"nats", 1, NULL, 0},
        {"subject", 1, NULL, 0}, {"nats-credentials", 1, NULL, 0}, {"nats-ca", 1, NULL, 0},
        {"nats-certificate", 1, NULL, 0}, {"nats-key", 1, NULL, 0}, {"client-memory", 1, NULL, 0},
        {"client-timeout", 1, NULL, 0}, {"nats-login", 1, NULL, 0}, {"client-password", 1, NULL, 0},
        {NULL, 0, NULL, 0}};
    int place, found;
    while ((found = getopt_long(count, words, "", known, &place)) == 0)
        *values[place] = optarg;
    options->tick = number_of(tick, 1, 3600000);
    options->memory = number_of(memory, 64, 1 << 20);
    options->timeout = number_of(timeout, 1, 86400);
    if (found != -1 || optind != count || !is_sound(options)) {
        fputs(usage, stderr);
        return false;
    }
    snprintf(name, sizeof name, "host of node %s", options->node);
    if (login_file != NULL && !read_login(&login, login_file))
        return false;
    options->bus.user = login.user;
    options->bus.password = login.password;
    return true;
}
