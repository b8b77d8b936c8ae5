#include "input.h"
#include "commands.h"

#include <errno.h>
#include <string.h>
#include <sys/uio.h>
#include <unistd.h>

enum {
    ONE_READ = OWN_ROOM,   /* so much is read at once: a client that has to wait then holds no more than that */
    LONG_READ = 1 << 20    /* and so much of a long command, which has its memory */
};

static const char NO_MEMORY[] = "-ERR out of memory\r\n";

/* What the last read from a client brought. Whole commands go to the node from here. What is left behind the client's
 * turn is kept in its own buffer. */
static char memory[LONG + 2 * ONE_READ];
static struct buffer fresh = {.bytes = memory, .room = sizeof memory};

static size_t least_of(size_t one, size_t other) {
    return one < other ? one : other;
}

bool input_is_read(const struct client *client, const struct node *node) {
    return client->state == OPEN && !client->ended && !client->waits && client->found == MORE
        && commands_are_taken(client, node);
}

/* The room without which no more of a command can be read. */
static size_t needed_room(const struct client *client) {
    size_t length = buffer_length(&client->in);
    return client->scanner.need > length ? client->scanner.need : length + 1;
}

/* The room that the input may have: for all of a long string that has begun, so that the client can always send it, or
 * else for one read. */
static size_t room_for(const struct client *client, struct share *share) {
    size_t room = client->in.room, need = needed_room(client), want = buffer_length(&client->in) + ONE_READ;
    if (want < need)
        want = need;
    if (room >= need && (need > ONE_READ || room >= want || !share_has(share, &client->part, want - room)))
        return room;
    return room + share_gives(share, &client->part, need > room ? need - room : 1, want - room, client->number);
}

/* How many bytes of a command the client may have sent: more than it has, or 0, and then it waits for room. A long one
 * gets its memory now. A client that holds the part of a long command does not wait for more room: two that wait for
 * each other would wait for ever. */
static size_t room_of(struct client *client, struct share *share) {
    struct buffer *in = &client->in;
    size_t room = room_for(client, share), need = needed_room(client);
    client->waits = room < need;
    if (client->waits && in->room > OWN_ROOM)
        client_evict(client);
    else if (!client->waits && need >= LONG && in->room - in->start < need
             && !buffer_resize(in, in->room > need ? in->room : need))
        client_refuse(client, NO_MEMORY);
    client_count(client, share);
    return client->state == OPEN && !client->waits ? room : 0;
}

void input_discard(struct client *client) {
    ssize_t count = read(client->descriptor, memory, ONE_READ);
    if (count == 0 || (count < 0 && errno != EAGAIN && errno != EINTR))
        client->state = BROKEN;
}

/* The next bytes of a long command go to where its first ones are, and what comes behind it to `fresh`. */
static ssize_t read_long(struct client *client, size_t room, size_t need) {
    struct buffer *in = &client->in;
    size_t missing = need - buffer_length(in), most = least_of(missing, LONG_READ);
    size_t behind = most < missing ? 0 : least_of(room - need, ONE_READ);
    struct iovec parts[] = {{in->bytes + in->end, most}, {fresh.bytes, behind}};
    ssize_t count = readv(client->descriptor, parts, behind > 0 ? 2 : 1);
    if (count <= 0)
        return count;
    size_t taken = least_of((size_t)count, most);
    in->end += taken;
    fresh.end = (size_t)count - taken;
    return count;
}

/* All goes to `fresh`, behind what there is of a short command. */
static ssize_t read_short(struct client *client, size_t room) {
    struct buffer *in = &client->in;
    size_t length = buffer_length(in);
    memcpy(fresh.bytes, buffer_front(in), length);
    ssize_t count = read(client->descriptor, fresh.bytes + length, least_of(room - length, ONE_READ));
    if (count <= 0)
        return count;
    fresh.end = length + (size_t)count;
    buffer_free(in);
    return count;
}

/* Notes what a read brought. */
static void note_read(struct client *client, ssize_t count) {
    client->ended = count == 0;
    if (count < 0 && errno != EAGAIN && errno != EINTR)
        client->state = BROKEN;
    if (count <= 0)
        return;
    client_moved(client, (size_t)count);
    client->quiet = 0;
}

/* Whether the command that has begun in the last read is long, and there is room for all of it. */
static bool has_room(const struct client *client, const struct share *share) {
    size_t length = buffer_length(&fresh), need = client->scanner.need;
    return buffer_length(&client->in) == 0 && client->found == MORE && length >= LONG && need > length
        && share->first == 0 && share_has(share, &client->part, need);
}

/* Reads the end of a command that has begun in the last read, if that had all that it could have. Whether more came. */
static bool read_end(struct client *client, const struct share *share) {
    size_t missing = client->scanner.need - buffer_length(&fresh);
    if (fresh.end < ONE_READ || !has_room(client, share) || missing > fresh.room - fresh.end)
        return false;
    ssize_t count = read(client->descriptor, fresh.bytes + fresh.end, missing);
    note_read(client, count);
    if (count > 0)
        fresh.end += (size_t)count;
    return count > 0;
}

/* Keeps what is left of the last read. A long command gets all its memory now, if there is room: then its first bytes
 * are copied once. */
static bool keep_fresh(struct client *client, const struct share *share) {
    size_t length = buffer_length(&fresh);
    if (has_room(client, share) && !buffer_resize(&client->in, client->scanner.need))
        return false;
    bool kept = buffer_add(&client->in, buffer_front(&fresh), length);
    buffer_drop(&fresh, length);
    return kept;
}

/* What the client's own buffer has came before what was read now. */
static bool forward_all(struct client *client, struct node *node, struct share *share, const char **error) {
    bool has_begun = buffer_length(&client->in) > 0;
    if (has_begun && !commands_forward(client, &client->in, node, share, error))
        return false;
    has_begun = buffer_length(&client->in) > 0;
    while (!has_begun) {
        if (!commands_forward(client, &fresh, node, share, error))
            return false;
        if (!read_end(client, share))
            break;
    }
    if (client->found == FAULT || buffer_length(&fresh) == 0)
        return true;
    if (!keep_fresh(client, share))
        client_refuse(client, NO_MEMORY);
    else if (has_begun && client->found == MORE)
        return commands_forward(client, &client->in, node, share, error);
    return true;
}

bool input_serve(struct client *client, struct node *node, struct share *share, bool readable) {
    const char *error = NULL;
    buffer_drop(&fresh, buffer_length(&fresh));
    bool has_waited = client->waits;
    if (has_waited || (readable && input_is_read(client, node))) {
        size_t room = room_of(client, share);
        size_t need = needed_room(client);
        if (room > 0 && input_is_read(client, node))
            note_read(client, need >= LONG ? read_long(client, room, need) : read_short(client, room));
    }
    if (client->state == OPEN && !forward_all(client, node, share, &error))
        return false;
    if (client->state != OPEN)
        return true;
    if (client->found == FAULT)
        client_refuse(client, error);
    else if (client->found == MORE && client->ended)
        client->state = DONE;
    buffer_trim(&client->in, buffer_length(&client->in) == 0 ? 0 : client->scanner.need);
    return true;
}
