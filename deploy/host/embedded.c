#define _GNU_SOURCE
#include "embedded.h"
#include "say.h"

#include <errno.h>
#include <fcntl.h>
#include <inttypes.h>
#include <stdlib.h>
#include <string.h>
#include <unistd.h>

/* The other statuses of the program `casd`: the cluster file is wrong, or has no such node; anything else. */
enum { WRONG_FILE = 2, OTHER_FAULT = 1 };

static bool ends(struct embedded *node, int status) {
    node->status = status;
    return false;
}

/* Why a node does not go on. */
static bool refuses(struct embedded *node, uint8_t answer) {
    if (answer == CASNODE_NO_MEMORY)
        say("out of memory");
    else if (answer == CASNODE_NO_MORE_IDS)
        say("no more ids for calls");
    else
        say("the node cannot go on: %s", casnode_string(answer));
    return ends(node, OTHER_FAULT);
}

/* Why a node is not opened. The library says where an error lies, and not which one it is. */
static bool refuses_to_open(struct embedded *node, uint8_t answer, uint64_t where, const char *number) {
    if (answer == CASNODE_BAD_FILE)
        say("the cluster file has a fault in line %" PRIu64, where);
    else if (answer == CASNODE_NO_NODE)
        say("the cluster file has no node %s", number);
    else if (answer == CASNODE_OLD_FORM)
        say("the log has an older form; deploy/convert-log FOLDER writes it in today's form");
    else if (answer == CASNODE_BAD_LOG && where > 0)
        say("the log, from byte %" PRIu64 ": it is damaged", where);
    else if (answer == CASNODE_BAD_LOG)
        say("the log, from byte 0: it is damaged, or that of another node, or of another cluster: a setting that is "
            "fixed at the first start differs in the cluster file");
    else
        return refuses(node, answer);
    return ends(node, answer == CASNODE_BAD_FILE || answer == CASNODE_NO_NODE ? WRONG_FILE : OTHER_FAULT);
}

/* Reads the cluster file. */
static bool read_file(const char *name, struct buffer *text) {
    int file = open(name, O_RDONLY | O_CLOEXEC);
    ssize_t count = file < 0 ? -1 : 1;
    while (count > 0 && buffer_reserve(text, 4096)) {
        count = read(file, text->bytes + text->end, 4096);
        text->end += count > 0 ? (size_t)count : 0;
    }
    if (count < 0)
        say("cannot read the cluster file: %s (os error %d)", strerror(errno), errno);
    if (file >= 0)
        close(file);
    return count == 0;
}

static bool open_node(struct embedded *node, const struct buffer *text, const char *number) {
    uint64_t where = 0;
    size_t length;
    const uint8_t *log = log_bytes(&node->log, &length);
    if (log == NULL)
        return ends(node, OTHER_FAULT);
    uint8_t answer = casnode_open(&node->node, (const uint8_t *)buffer_front(text), buffer_length(text),
                                  (uint8_t)atoi(number), log, length, &where);
    log_forget(log, length);
    return answer == CASNODE_DONE || refuses_to_open(node, answer, where, number);
}

bool embedded_open(struct embedded *node, const char *file, const char *number, const char *folder, struct buffer *in) {
    struct buffer text = {0};
    *node = (struct embedded){.log = {.folder = -1, .file = -1}};
    bool opened = read_file(file, &text) || ends(node, WRONG_FILE);
    opened = opened && (log_open(&node->log, folder) || ends(node, OTHER_FAULT)) && open_node(node, &text, number);
    buffer_free(&text);
    if (!opened)
        return false;
    log_remove_second(&node->log);
    node->has_tasks = true;
    return embedded_read(node, in) != HAS_ENDED;
}

void embedded_handle(struct embedded *node, struct queue *out) {
    size_t used = 0;
    uint16_t other = CASNODE_NO_OTHER;
    if (node->status != 0 || node->has_tasks || out->length == 0)
        return;
    const uint8_t *input = (const uint8_t *)buffer_front(&out->copied);
    uint8_t answer = casnode_handle(&node->node, input, out->length, &used, &other);
    if (answer != CASNODE_DONE || used == 0) {
        refuses(node, answer == CASNODE_DONE ? CASNODE_NO_FRAME : answer);
        return;
    }
    queue_drop(out, used);
    if (other != CASNODE_NO_OTHER)
        say("node %u has another cluster file; its messages are dropped", (unsigned)other);
    node->has_tasks = true;
    node->place = 0;
}

/* The bytes of the task in this place, at the end of a buffer. */
static bool take_bytes(struct embedded *node, size_t place, uint64_t count, struct buffer *to) {
    if (!buffer_reserve(to, count))
        return ends(node, OTHER_FAULT);
    uint8_t answer = casnode_bytes(&node->node, place, (uint8_t *)to->bytes + to->end, count);
    to->end += count;
    return answer == CASNODE_DONE || refuses(node, answer);
}

static bool append(struct embedded *node, size_t place, uint64_t count) {
    struct buffer *bytes = &node->bytes;
    if (!take_bytes(node, place, count, bytes))
        return false;
    bool appended = log_append(&node->log, buffer_front(bytes), buffer_length(bytes));
    buffer_drop(bytes, buffer_length(bytes));
    return appended || ends(node, LOG_LOST);
}

/* Puts the new log in the place of the old one. If it cannot be written, the node goes on with the old one. */
static bool replace(struct embedded *node, size_t place, uint64_t count) {
    uint8_t kept = 0, *bytes = malloc(count > 0 ? count : 1);
    enum exchange exchange = UNWRITTEN;
    if (bytes == NULL)
        log_stays("out of memory");
    else if (casnode_bytes(&node->node, place, bytes, count) == CASNODE_DONE)
        exchange = log_replace(&node->log, (const char *)bytes, count);
    free(bytes);
    if (exchange == UNWRITTEN)
        casnode_keep_log(&node->node, &kept);
    return exchange != UNKNOWN || ends(node, LOG_LOST);
}

static bool carry_out(struct embedded *node, size_t place, uint8_t kind, uint64_t count) {
    switch (kind) {
    case CASNODE_APPEND:
        return append(node, place, count);
    case CASNODE_SYNC:
        return log_sync(&node->log) || ends(node, LOG_LOST);
    case CASNODE_CUT:
        return log_cut(&node->log, count) || ends(node, OTHER_FAULT);
    case CASNODE_REPLACE:
        return replace(node, place, count);
    default:
        return refuses(node, CASNODE_NO_TASK);
    }
}

/* Once all tasks are carried out: whether the log is written anew, for which there is a task then. */
static bool begins_anew(struct embedded *node) {
    uint8_t worth = 0, given = 0;
    casnode_should_rewrite(&node->node, &worth);
    if (worth == 0)
        return false;
    uint8_t answer = casnode_rewrite(&node->node, &given);
    if (answer != CASNODE_DONE)
        log_stays(answer == CASNODE_NO_MEMORY ? "out of memory" : casnode_string(answer));
    return given != 0;
}

enum coming embedded_read(struct embedded *node, struct buffer *in) {
    while (node->status == 0 && node->has_tasks) {
        uint8_t kind;
        uint64_t count;
        size_t place = node->place++;
        casnode_task(&node->node, place, &kind, &count);
        if (kind == CASNODE_NOTHING) {
            node->has_tasks = begins_anew(node);
            node->place = 0;
        } else if (kind != CASNODE_SEND) {
            carry_out(node, place, kind, count);
        } else if (count > 0 && take_bytes(node, place, count, in)) {
            return FRAMES;
        }
    }
    return node->status == 0 ? NOTHING : HAS_ENDED;
}

void embedded_close(struct embedded *node) {
    casnode_close(&node->node);
    log_close(&node->log);
    buffer_free(&node->bytes);
}
