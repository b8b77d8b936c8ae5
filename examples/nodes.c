/* Three nodes of a cluster in one process, which send each other frames over pairs of sockets and keep their logs in
   files. A client writes a value at node 1; node 2 is closed, and opened again from its log; a client reads at node 2.
     nodes FOLDER       keeps the logs in this folder, as 1.log and so on
   The program never calls casnode_rewrite, so it gets no task to replace a log. */
#define _DEFAULT_SOURCE
#include <casnode.h>
#include <fcntl.h>
#include <stdio.h>
#include <stdlib.h>
#include <string.h>
#include <sys/socket.h>
#include <unistd.h>

enum { NODES = 3, ROOM = 1 << 16 };
static const char CLUSTER[] = "nodes 1 2 3\nn 3\nk 1\ndelta 1\nmover 1\nlater\nticks 50\n";

struct input {
  int socket;
  size_t length; /* of what has come and is not handled */
  uint8_t bytes[ROOM];
};

static struct member {
  struct casnode node;
  int log;                      /* the file of its log */
  struct input from[NODES + 1]; /* from[0] is that of clients */
} members[NODES + 1];
static char told[ROOM]; /* the last answer to a client */

static void check(int holds, const char *what) {
  if (!holds)
    exit(fprintf(stderr, "nodes: not done: %s\n", what) > 0);
}

/* The number in a line such as "$5\r\n"; `at` is then behind it. */
static size_t line(const char **at) {
  char *end;
  size_t number = strtoul(*at + 1, &end, 10);
  *at = end + 2;
  return number;
}

/* Sends a frame to another node, with the address of its sender in place of that of its receiver; or tells a client the
   strings behind the address, one after another. Returns what is behind the frame. */
static const char *send_frame(int from, const char *frame) {
  const char *at = frame;
  char head[64];
  size_t count = line(&at), length = line(&at), end = 0;
  const char *address = at, *rest = at += length + 2;
  for (size_t i = 1; i < count; i++, at += length + 2) {
    length = line(&at);
    if (address[0] == 'c' && end + length < ROOM) {
      memcpy(told + end, at, length);
      told[end += length] = 0;
    }
  }
  if (address[0] == 'n') {
    int socket = members[from].from[atoi(address + strlen("node "))].socket;
    length = (size_t)sprintf(head, "*%zu\r\n$6\r\nnode %d\r\n", count, from);
    check(write(socket, head, length) == (ssize_t)length && write(socket, rest, at - rest) == at - rest, "a send");
  }
  return at;
}

/* Carries out the tasks of a node, one after another. */
static void carry_out(int number) {
  struct member *member = &members[number];
  uint8_t kind;
  uint64_t count;
  for (size_t place = 0; casnode_task(&member->node, place, &kind, &count), kind != CASNODE_NOTHING; place++) {
    size_t length = kind == CASNODE_CUT ? 0 : (size_t)count;
    char *bytes = malloc(length + 1);
    check(bytes != NULL && casnode_bytes(&member->node, place, (uint8_t *)bytes, length) == CASNODE_DONE, "a task");
    for (const char *at = bytes; kind == CASNODE_SEND && at < bytes + length;)
      at = send_frame(number, at);
    if (kind == CASNODE_APPEND)
      check(write(member->log, bytes, length) == (ssize_t)length, "an append");
    if (kind == CASNODE_SYNC)
      check(fdatasync(member->log) == 0, "a sync");
    if (kind == CASNODE_CUT)
      check(ftruncate(member->log, (off_t)count) == 0, "a cut");
    free(bytes);
  }
}

static void open_node(int number) {
  static uint8_t log[1 << 20];
  struct member *member = &members[number];
  char name[] = {(char)('0' + number), '.', 'l', 'o', 'g', 0};
  uint64_t where;
  member->log = open(name, O_RDWR | O_CREAT | O_APPEND, 0600);
  ssize_t length = read(member->log, log, sizeof log);
  check(length >= 0 && length < (ssize_t)sizeof log, "a log");
  uint8_t answer = casnode_open(&member->node, (const uint8_t *)CLUSTER, strlen(CLUSTER), (uint8_t)number, log,
                                (size_t)length, &where);
  check(answer == CASNODE_DONE, casnode_string(answer));
  carry_out(number);
}

/* Hands over what has come from there, and carries out the tasks. No whole frame is left then. */
static void handle(int number, struct input *input) {
  size_t used = 1;
  uint16_t other;
  while (used > 0 && input->length > 0) {
    check(casnode_handle(&members[number].node, input->bytes, input->length, &used, &other) == CASNODE_DONE, "frames");
    carry_out(number);
    memmove(input->bytes, input->bytes + used, input->length -= used);
  }
}

static int has_come(int number, struct input *input) {
  ssize_t count = recv(input->socket, input->bytes + input->length, ROOM - input->length, MSG_DONTWAIT);
  if (count > 0) {
    input->length += (size_t)count;
    handle(number, input);
  }
  return count > 0;
}

/* A client's command comes to a node. Then all nodes handle frames until no more come. */
static void ask(int number, const char *command) {
  struct input *client = &members[number].from[0];
  memcpy(client->bytes, command, client->length = strlen(command));
  handle(number, client);
  int is_busy;
  do {
    is_busy = 0;
    for (int i = 1; i <= NODES; i++)
      for (int j = 1; j <= NODES; j++)
        is_busy |= i != j && has_come(i, &members[i].from[j]);
  } while (is_busy);
  printf("node %d answers: %s", number, told);
}

int main(int argc, char **argv) {
  check(argc == 2 && chdir(argv[1]) == 0, "the folder");
  for (int i = 1; i <= NODES; i++)
    for (int j = i + 1; j <= NODES; j++) {
      int pair[2];
      check(socketpair(AF_UNIX, SOCK_STREAM, 0, pair) == 0, "a pair of sockets");
      members[i].from[j].socket = pair[0];
      members[j].from[i].socket = pair[1];
    }
  for (int i = 1; i <= NODES; i++)
    open_node(i);
  ask(1, "*4\r\n$8\r\nclient 1\r\n$3\r\nSET\r\n$4\r\nname\r\n$5\r\nhello\r\n");
  casnode_close(&members[2].node), close(members[2].log);
  open_node(2);
  ask(2, "*3\r\n$8\r\nclient 2\r\n$3\r\nGET\r\n$4\r\nname\r\n");
}
