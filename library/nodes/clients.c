#include "world.h"

#include <stdio.h>
#include <stdlib.h>
#include <string.h>

/* The bytes of a value: its number, and as many others as it is long. */
static size_t write_value(char *to, const struct call *call) {
  size_t length = (size_t)sprintf(to, "%u-", call->value);
  memset(to + length, 'a' + (int)(call->value % 26), call->length);
  to[length + call->length] = 0;
  return length + call->length;
}

/* The call that writes this value to this name: a value is the place of its call, from 1 on. */
static const struct call *value_of(const struct world *world, int name, unsigned value) {
  if (value == 0 || value > (unsigned)world->call_count)
    return NULL;
  const struct call *call = &world->calls[value - 1];
  return call->is_write && call->name == name ? call : NULL;
}

/* Sets the value that a read was answered, which has to be that of a write. */
static void take_value(struct world *world, struct call *read, const char *answer, size_t length) {
  static char wanted[8192];
  const struct call *call;
  const char *value = memchr(answer, '\n', length);
  if (answer[0] != '$' || value == NULL) {
    world_fault(world, "an unexpected answer to call", (unsigned)(read - world->calls));
    return;
  }
  value++;
  size_t count = (size_t)(answer + length - value);
  read->value = count < 4 ? 0 : (unsigned)strtoul(value, NULL, 10);
  if (count < 4)
    return;
  call = value_of(world, read->name, read->value);
  if (call == NULL || write_value(wanted, call) != count - 2 || memcmp(wanted, value, count - 2) != 0)
    world_fault(world, "a value that nobody wrote, at call", (unsigned)(read - world->calls));
}

static bool begins(const char *bytes, size_t length, const char *with) {
  return length >= strlen(with) && memcmp(bytes, with, strlen(with)) == 0;
}

void world_end_call(struct world *world, struct client *client) {
  client->is_open = false;
  if (client->call >= 0)
    world->shown[client->call].ended = world->events;
}

static void take_answer(struct world *world, struct client *client, const char *answer, size_t length) {
  bool is_done = begins(answer, length, "+OK\r\n"), is_given_up = begins(answer, length, "-ERR no quorum");
  world_end_call(world, client);
  world->moment++;
  if (client->call < 0) {
    world->moves += is_done;
    if (!is_done && !is_given_up && !begins(answer, length, "-ERR another move"))
      world_fault(world, "a move was refused", client->connection);
    return;
  }
  struct call *call = &world->calls[client->call];
  world->given_up += is_given_up;
  if (is_given_up)
    return;
  call->ended = world->moment;
  if (!call->is_write)
    take_value(world, call, answer, length);
  else if (!is_done)
    world_fault(world, "a write was refused", client->connection);
}

void world_answer(struct world *world, const struct frame *frame, unsigned connection) {
  static char answer[16384];
  size_t length = answer_in(frame, answer, sizeof answer);
  for (int i = 0; i <= MOST_CLIENTS; i++)
    if (world->clients[i].is_open && world->clients[i].connection == connection)
      take_answer(world, &world->clients[i], answer, length);
}

static struct client *connect(struct world *world, int client, uint8_t node, int call) {
  world->begun[node]++;
  world->events++;
  world->clients[client] = (struct client){true, ++world->connections, node, call};
  return &world->clients[client];
}

void world_call(struct world *world, int client, uint8_t node, int name, bool is_write, unsigned length) {
  static char value[8192];
  char address[24], key[16];
  if (world->call_count == MOST_CALLS)
    return;
  struct call *call = &world->calls[world->call_count];
  *call = (struct call){name, is_write, is_write ? (unsigned)world->call_count + 1 : 0, length, ++world->moment, 0};
  struct client *it = connect(world, client, node, world->call_count);
  world->shown[world->call_count++] = (struct shown){client, node, world->events, 0};
  snprintf(address, sizeof address, "client %u", it->connection);
  snprintf(key, sizeof key, "name-%d", name);
  write_value(value, call);
  struct bytes *inbox = &world->machines[node].inbox;
  if (is_write)
    put_words(inbox, address, "SET", key, value, NULL);
  else
    put_words(inbox, address, "GET", key, NULL);
}

void world_leave(struct world *world, int client) {
  char address[24];
  snprintf(address, sizeof address, "client %u", world->clients[client].connection);
  world_end_call(world, &world->clients[client]);
  world->events++;
  put_words(&world->machines[world->clients[client].node].inbox, address, NULL);
}

void world_move(struct world *world, int name) {
  char address[24], key[16], k[16], nodes[MACHINES + 1][2] = {{0}};
  int count = 0;
  for (int i = 1; i <= MACHINES; i++)
    if (happens(world, 160))
      nodes[count++][0] = (char)('0' + i);
  if (count == 0)
    nodes[count++][0] = '2';
  struct client *it = connect(world, MOST_CLIENTS, 1, -1);
  snprintf(address, sizeof address, "client %u", it->connection);
  snprintf(key, sizeof key, "name-%d", name);
  snprintf(k, sizeof k, "%u", 1 + draw(world, (unsigned)count));
  const char *word[5];
  for (int i = 0; i < 5; i++)
    word[i] = i < count ? nodes[i] : NULL;
  put_words(&world->machines[1].inbox, address, "MOVE", key, k, word[0], word[1], word[2], word[3], word[4], NULL);
}

bool world_has_calls(const struct world *world) {
  for (int i = 0; i <= MOST_CLIENTS; i++)
    if (world->clients[i].is_open)
      return true;
  return false;
}
