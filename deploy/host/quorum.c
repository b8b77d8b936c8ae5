#define _GNU_SOURCE
#include "quorum.h"
#include "frame.h"
#include "say.h"

#include <inttypes.h>
#include <stdio.h>
#include <stdlib.h>
#include <string.h>

enum { GRACE = 4 /* seconds, of which three are whole */, LONGEST_LIST_OF_NODES = MOST_NODES * 4 + 1 };

/* Seconds of a clock that only goes on. */
static time_t now(void) {
    struct timespec time;
    clock_gettime(CLOCK_MONOTONIC, &time);
    return time.tv_sec;
}

/* Takes the value of a line `nodes`, `n` or `k`. */
static void take_value(struct quorum *quorum, const char *setting, const char *word) {
    uint64_t number;
    if (!read_number(word, strlen(word), &number) || number >= MOST_NODES)
        return;
    if (strcmp(setting, "nodes") == 0 && !quorum->is_node[number]) {
        quorum->is_node[number] = true;
        quorum->nodes++;
    } else if (strcmp(setting, "n") == 0) {
        quorum->n = number;
    } else if (strcmp(setting, "k") == 0) {
        quorum->k = number;
    }
}

static void read_line(struct quorum *quorum, char *line) {
    char *rest, *word;
    line[strcspn(line, "#")] = 0;
    const char *setting = strtok_r(line, " \t\r\n", &rest);
    while (setting != NULL && (word = strtok_r(NULL, " \t\r\n", &rest)) != NULL)
        take_value(quorum, setting, word);
}

void quorum_read(struct quorum *quorum, const char *file) {
    FILE *input = fopen(file, "re");
    char *line = NULL;
    size_t room = 0;
    quorum->began = now();
    while (input != NULL && getline(&line, &room, input) >= 0)
        read_line(quorum, line);
    free(line);
    if (input != NULL)
        fclose(input);
}

/* How many nodes may be missing: of any n of them, (n + k)/2, rounded up, are a quorum. */
static uint64_t may_miss(const struct quorum *quorum) {
    return quorum->n - (quorum->n + quorum->k + 1) / 2;
}

/* Lists the nodes that are not heard, each behind a space. Their count. */
static uint64_t list_missed(const struct quorum *quorum, const struct peers *peers, char *text) {
    uint64_t count = 0;
    *text = 0;
    for (unsigned node = 0; node < MOST_NODES; node++) {
        if (quorum->is_node[node] && !peers_hears(peers, node)) {
            text += sprintf(text, " %u", node);
            count++;
        }
    }
    return count;
}

void quorum_miss(struct quorum *quorum, const struct peers *peers) {
    char missed[LONGEST_LIST_OF_NODES];
    if (quorum->k == 0 || quorum->k > quorum->n || quorum->n > quorum->nodes || now() - quorum->began < GRACE)
        return;
    bool is_missed = list_missed(quorum, peers, missed) > may_miss(quorum);
    if (is_missed == quorum->is_missed)
        return;
    quorum->is_missed = is_missed;
    if (is_missed)
        say("fewer than a quorum of the nodes is heard, so calls are given up. Not heard:%s", missed);
    else
        say("a quorum of the nodes is heard again");
}
