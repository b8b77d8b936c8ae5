#include "world.h"

#include <stdio.h>
#include <string.h>

/* Messages are written as they are sent, and calls as they begin. */
void world_clear(struct world *world, uint64_t random) {
  world->random = random;
  memset(world->machines, 0, sizeof world->machines);
  memset(world->clients, 0, sizeof world->clients);
  for (int i = 0; i <= MACHINES; i++)
    world->starts[i] = world->begun[i] = 0;
  world->message_count = 0;
  world->connections = world->moment = world->now = 0;
  world->call_count = 0;
  world->stops = world->losses = world->moves = world->given_up = world->rewritings = world->asked = world->events = 0;
  world->fault[0] = 0;
}

unsigned draw(struct world *world, unsigned below) {
  uint64_t mixed = world->random += 0x9e3779b97f4a7c15u;
  mixed = (mixed ^ (mixed >> 30)) * 0xbf58476d1ce4e5b9u;
  mixed = (mixed ^ (mixed >> 27)) * 0x94d049bb133111ebu;
  return (unsigned)((mixed ^ (mixed >> 31)) >> 33) % below;
}

bool happens(struct world *world, unsigned often) { return draw(world, 256) < often; }

void world_fault(struct world *world, const char *what, unsigned number) {
  if (world->fault[0] == 0)
    snprintf(world->fault, sizeof world->fault, "%s %u", what, number);
}

static void send(void *network, struct machine *from, const struct frame *frame) {
  struct world *world = network;
  long to = number_behind(frame, "node "), connection = number_behind(frame, "client ");
  if (connection >= 0)
    world_answer(world, frame, (unsigned)connection);
  if (to < 1 || to > MACHINES)
    return;
  if (world->message_count >= world->most)
    world_lose(world, draw(world, (unsigned)world->message_count));
  struct message *message = &world->messages[world->message_count++];
  *message = (struct message){from->number, (uint8_t)to, world->now, world->starts[to], world->begun[to], {0}};
  if (happens(world, world->slow))
    message->due += 50 + draw(world, 450);
  const char address[] = {'n', 'o', 'd', 'e', ' ', (char)('0' + from->number), 0};
  put_frame(&message->frame, address, frame->count, frame->rest, frame->rest_length);
}

/* Where tasks stop, if they do: so many of 256. */
static struct stop stop_at(struct world *world, unsigned stops) {
  if (!happens(world, stops))
    return NO_STOP;
  size_t place = draw(world, 4);
  return (struct stop){place, draw(world, 257)};
}

void world_stop(struct world *world, uint8_t number) {
  struct machine *machine = &world->machines[number];
  world->events++;
  if (world->stops < MOST_STOPS)
    world->downs[world->stops] = (struct down){number, world->events, 0};
  world->stops++;
  if (happens(world, world->power)) {
    world->losses++;
    unsigned part = happens(world, 128) ? 0 : draw(world, 257);
    bool has_zeros = happens(world, 64);
    machine_lose_power(machine, part, has_zeros, happens(world, 128));
  } else {
    machine_kill(machine);
  }
  for (int i = 0; i <= MOST_CLIENTS; i++)
    if (world->clients[i].is_open && world->clients[i].node == number)
      world_end_call(world, &world->clients[i]);
}

/* Carries out the machine's tasks, and stops it if one of them is cut off. */
static void carry_out(struct world *world, uint8_t number, unsigned stops) {
  struct machine *machine = &world->machines[number];
  uint64_t length;
  if (!machine_carry_out(machine, stop_at(world, stops), send, world))
    world_stop(world, number);
  else if (casnode_log_length(&machine->node, &length) != CASNODE_DONE ||
           length != machine->log.length + machine->held.length)
    world_fault(world, "a log has another length than its node says, at machine", number);
}

/* The last stop of the machine is over. */
static void end_down(struct world *world, uint8_t number) {
  for (unsigned i = world->stops < MOST_STOPS ? world->stops : MOST_STOPS; i-- > 0;)
    if (world->downs[i].machine == number) {
      world->downs[i].ended = world->events;
      return;
    }
}

void world_start(struct world *world, uint8_t number, unsigned stops) {
  world->starts[number]++;
  world->begun[number] = 0;
  world->events++;
  end_down(world, number);
  uint8_t answer = machine_open(&world->machines[number], world->file);
  if (answer != CASNODE_DONE)
    world_fault(world, casnode_string(answer), number);
  else
    carry_out(world, number, stops);
}

/* Writes the log anew, if this can be done; sometimes the program does not put the new one in its place. */
static void rewrite(struct world *world, uint8_t number, unsigned stops) {
  struct machine *machine = &world->machines[number];
  uint8_t is_given, is_kept;
  if (casnode_rewrite(&machine->node, &is_given) != CASNODE_DONE)
    world_fault(world, "a log was not written anew, at machine", number);
  if (!is_given)
    return;
  if (happens(world, 64) && (casnode_keep_log(&machine->node, &is_kept) != CASNODE_DONE || !is_kept))
    world_fault(world, "an old log was not kept, at machine", number);
  world->rewritings++;
  carry_out(world, number, stops);
}

void world_round(struct world *world, uint8_t number, unsigned stops) {
  struct machine *machine = &world->machines[number];
  uint16_t other;
  size_t length = machine->inbox.length;
  if (happens(world, 16))
    length = draw(world, (unsigned)length + 1);
  uint8_t answer = machine_handle(machine, length, &other);
  if (answer != CASNODE_DONE || other != CASNODE_NO_OTHER) {
    world_fault(world, casnode_string(answer), number);
    return;
  }
  carry_out(world, number, stops);
  if (machine->is_up && happens(world, world->rewrites))
    rewrite(world, number, stops);
}

bool world_waits(const struct world *world, const struct message *message) {
  uint8_t to = message->to;
  return world->waits && (!world->machines[to].is_up ||
                          (message->starts < world->starts[to] && world->begun[to] < message->begun));
}

void world_lose(struct world *world, size_t place) {
  bytes_free(&world->messages[place].frame);
  memmove(&world->messages[place], &world->messages[place + 1],
          (--world->message_count - place) * sizeof world->messages[0]);
}

void world_deliver(struct world *world, size_t place, bool stays) {
  struct message *message = &world->messages[place];
  struct machine *machine = &world->machines[message->to];
  if (machine->is_up) {
    bytes_add(&machine->inbox, message->frame.first, message->frame.length);
    world->events++;
  }
  if (!stays)
    world_lose(world, place);
}

void world_free(struct world *world) {
  while (world->message_count > 0)
    world_lose(world, world->message_count - 1);
  for (int i = 1; i <= MACHINES; i++)
    machine_free(&world->machines[i]);
}
