/*
 * Who the other nodes are. Each folder has an identity, a random number that the host makes when it first starts with
 * that folder, and keeps in the file FOLDER/identity. It travels with each message. The file FOLDER/peers keeps under
 * which identity each number was first heard. Whoever has the same number under another identity is a stranger: another
 * process with this number, or a node whose folder was lost.
 */
#ifndef PEERS_H
#define PEERS_H

#include <stdbool.h>
#include <stddef.h>
#include <stdint.h>

enum {
    MOST_NODES = 256,          /* the numbers of nodes are below this */
    IDENTITY_DIGITS = 16,
    MOST_STRANGERS = 8,        /* so many strangers of a number are named on standard error */
    LONGEST_LIST = MOST_NODES * 10
};

struct peer {
    bool is_known;
    uint64_t identity;                      /* under which the number was first heard */
    uint64_t heard, told;                   /* when it was last heard, and a stranger last told; 0 for never */
    uint64_t strangers[MOST_STRANGERS];     /* those that were named on standard error */
    unsigned stranger_count;
    bool has_named;                         /* whether it said that it knows this node under another identity */
    bool is_missed;                         /* whether it was said that it is not heard any more */
};

struct peers {
    const char *folder;
    uint64_t own, identity;                 /* this node's number, and its folder's identity */
    uint64_t greetings, echoes;             /* those of this node that it sent, and those that it heard */
    bool has_double;                        /* whether it was said that there is a copy of the folder */
    struct peer nodes[MOST_NODES];
};

/* Reads the folder's identity and the peers, or makes the identity where the folder is new. False, with a message,
 * where a file is damaged, or cannot be read or written. */
bool peers_open(struct peers *peers, const char *folder, const char *node);

enum hearing { HEARD, STRANGE, UNKEPT };

/*
 * A message came from a node under an identity. STRANGE, with a message once for each number and identity, where the
 * number was first heard under another one. UNKEPT, with a message, where a number that was never heard before cannot
 * be kept.
 */
enum hearing peers_hear(struct peers *peers, uint64_t node, uint64_t identity);

/* A node names the identity under which it knows this node. Says so, once for each node, where it is another one. */
void peers_named(struct peers *peers, uint64_t node, uint64_t identity);

/* This node's own greeting came back: NATS sends it to all. If there are more of them than this host has sent, another
 * process has a copy of the folder, and this says so once. */
void peers_echo(struct peers *peers);

/* Whether a node has to be told now under which identity it is known here: at most once a second. */
bool peers_must_tell(struct peers *peers, uint64_t node);

/* Says which nodes that were heard before have not been heard for three seconds, and which of these are heard again:
 * each once. */
void peers_miss(struct peers *peers);

/* Whether a node is heard: this node itself, or one that was heard within three seconds. */
bool peers_hears(const struct peers *peers, uint64_t node);

/* Lists the nodes that were heard within three seconds, this node first, as the strings of a frame. Their count. */
size_t peers_list(const struct peers *peers, char *strings, size_t *length);

/* Writes the file of the peers. False, with a message, where this fails. */
bool peers_keep(const struct peers *peers);

/* Reads an identity. False where the text is none. */
bool read_identity(const char *text, size_t length, uint64_t *identity);

#endif
