/*
 * A node as the host has it in its process (deploy/host/embedded.c), on pipes: piped FILE NODE FOLDER. It takes frames
 * on standard input and writes frames to standard output, as the program `casd` does, so that the tests of `casd` can be
 * run over it. `deploy/build piped` builds it.
 */
#define _GNU_SOURCE
#include "embedded.h"
#include "frame.h"
#include "say.h"
#include "streams.h"

#include <errno.h>
#include <signal.h>
#include <stdarg.h>
#include <stdio.h>
#include <stdlib.h>
#include <string.h>
#include <unistd.h>

enum { ONE_READ = 64 << 10 };

static struct embedded node;
static struct queue out;
static struct buffer in, fresh;
static struct scanner scanner;

void say(const char *format, ...) {
    char line[1024];
    va_list values;
    va_start(values, format);
    vsnprintf(line, sizeof line, format, values);
    va_end(values);
    fprintf(stderr, "casd: %s\n", line);
}

static bool write_all(struct buffer *from) {
    while (buffer_length(from) > 0) {
        ssize_t count = write(STDOUT_FILENO, buffer_front(from), buffer_length(from));
        if (count < 0) {
            say("cannot write the output: %s (os error %d)", strerror(errno), errno);
            return false;
        }
        buffer_drop(from, (size_t)count);
    }
    return true;
}

/* Queues the whole frames of what was read. */
static bool take_frames(void) {
    enum found found = FRAME;
    while (found == FRAME && buffer_length(&fresh) > 0) {
        found = scan(&scanner, buffer_front(&fresh), buffer_length(&fresh), MOST_STRINGS);
        if (found == FRAME && !queue_add(&out, buffer_front(&fresh), scanner.at))
            return false;
        if (found != FRAME)
            break;
        buffer_drop(&fresh, scanner.at);
        scanner = (struct scanner){0};
    }
    if (found == FAULT)
        say("the input is no frame");
    return found != FAULT;
}

/* Has the node handle all that waits. Its status, once it has ended, or 0. */
static int serve(void) {
    enum coming coming = FRAMES;
    while (out.length > 0 || coming == FRAMES) {
        embedded_handle(&node, &out);
        while ((coming = embedded_read(&node, &in)) == FRAMES) {
            if (!write_all(&in))
                return 1;
        }
        if (coming == HAS_ENDED)
            return node.status;
    }
    return 0;
}

static int run(void) {
    for (;;) {
        if (!buffer_reserve(&fresh, ONE_READ))
            return 1;
        ssize_t count = read(STDIN_FILENO, fresh.bytes + fresh.end, ONE_READ);
        if (count <= 0)
            return 0;
        fresh.end += (size_t)count;
        bool good = take_frames();
        int status = serve();
        if (status != 0 || !good)
            return status != 0 ? status : 1;
    }
}

int main(int count, char **words) {
    if (!streams_fill())
        return 1;
    signal(SIGPIPE, SIG_IGN);
    if (count != 4) {
        say("usage: piped FILE NODE FOLDER");
        return 2;
    }
    int status = embedded_open(&node, words[1], words[2], words[3], &in) ? run() : node.status;
    embedded_close(&node);
    queue_free(&out);
    buffer_free(&in);
    buffer_free(&fresh);
    return status;
}
