#include "scheduler.h"

#include <stdio.h>

enum { OLDEST = 20 }; /* among so many old messages the next one is drawn */

/* How often each thing happens in a run, of 256, and how many there are of others. */
struct plan {
  unsigned calls, clients, names, writes, longest, loss, repeats, newest;
  unsigned kills, stops, starts, ticks, moves, most_moves, leaves, pace;
};

static unsigned one_of(struct world *world, unsigned first, unsigned second, unsigned third) {
  unsigned place = draw(world, 3);
  return place == 0 ? first : place == 1 ? second : third;
}

/* Draws stand in statements of their own: the order of arguments is not the same with each compiler. */
static struct plan draw_plan(struct world *world) {
  struct plan plan;
  plan.calls = 30 + draw(world, 50);
  plan.clients = 2 + draw(world, MOST_CLIENTS - 1);
  plan.names = one_of(world, 1, 1, 3);
  plan.writes = one_of(world, 40, 128, 200);
  plan.longest = one_of(world, 1, 100, 3000);
  plan.loss = one_of(world, 0, 12, 50);
  plan.repeats = one_of(world, 0, 12, 75);
  plan.newest = one_of(world, 0, 75, 230);
  plan.kills = one_of(world, 0, 4, 10);
  plan.stops = one_of(world, 0, 4, 16);
  plan.starts = one_of(world, 12, 50, 50);
  plan.ticks = one_of(world, 8, 16, 32);
  plan.moves = one_of(world, 0, 0, 5);
  plan.most_moves = 12;
  plan.leaves = one_of(world, 0, 0, 3);
  plan.pace = one_of(world, 4, 10, 30);
  return plan;
}

/* Settings of the cluster: how many nodes keep a value, of how many fragments, and when they forget and give up. */
static void draw_file(struct world *world) {
  static const char *const forms[] = {"n 5\nk 3", "n 5\nk 1", "n 3\nk 1", "n 4\nk 2", "n 4\nk 1", "n 3\nk 1"};
  static const char *const deltas[] = {"0", "1", "2", "none"};
  const char *form = forms[draw(world, 6)];
  const char *delta = deltas[draw(world, 4)];
  unsigned ticks = one_of(world, 6, 50, 50);
  snprintf(world->file, sizeof world->file, "nodes 1 2 3 4 5\n%s\ndelta %s\nmover 1\nlater\nticks %u\n", form, delta,
           ticks);
}

/* A machine that is up, or one that is down; 0 if there is none. */
static uint8_t machine_that(struct world *world, bool is_up) {
  uint8_t found[MACHINES], count = 0;
  for (uint8_t i = 1; i <= MACHINES; i++)
    if (world->machines[i].is_up == is_up)
      found[count++] = i;
  return count == 0 ? 0 : found[draw(world, count)];
}

static void begin_call(struct world *world, const struct plan *plan, unsigned *left) {
  int client = (int)draw(world, plan->clients);
  uint8_t node = machine_that(world, true);
  if (*left == 0 || world->clients[client].is_open || node == 0)
    return;
  (*left)--;
  int name = (int)draw(world, plan->names);
  bool is_write = happens(world, plan->writes);
  world_call(world, client, node, name, is_write, draw(world, plan->longest));
}

static void begin_move(struct world *world, const struct plan *plan) {
  if (world->asked == plan->most_moves || !world->machines[1].is_up || world->clients[MOST_CLIENTS].is_open)
    return;
  world->asked++;
  world_move(world, (int)draw(world, plan->names));
}

static bool may_arrive(const struct world *world, size_t place) {
  return world->messages[place].due <= world->now && !world_waits(world, &world->messages[place]);
}

/* The place of the last message that may arrive. There has to be one. */
static size_t newest(const struct world *world) {
  size_t place = world->message_count - 1;
  while (!may_arrive(world, place))
    place--;
  return place;
}

/* Delivers, repeats or loses one message that may arrive, often an old or a new one. Returns whether there was one. */
static bool deliver_one(struct world *world, const struct plan *plan) {
  size_t places[OLDEST];
  unsigned count = 0;
  for (size_t i = 0; i < world->message_count && count < OLDEST; i++)
    if (may_arrive(world, i))
      places[count++] = i;
  if (count == 0)
    return false;
  size_t place = happens(world, plan->newest) ? newest(world) : places[draw(world, count)];
  struct message *message = &world->messages[place];
  bool is_old = world->waits && message->starts < world->starts[message->to];
  if (happens(world, plan->loss))
    world_lose(world, place);
  else
    world_deliver(world, place, happens(world, is_old ? 128 : plan->repeats));
  return true;
}

static void tick(struct world *world, uint8_t number) {
  world->events++;
  put_words(&world->machines[number].inbox, "tick", NULL);
}

/* Each machine handles what has come. Returns whether something had. */
static bool rounds(struct world *world, unsigned stops) {
  bool has_come = false;
  for (uint8_t i = 1; i <= MACHINES; i++)
    if (world->machines[i].is_up && world->machines[i].inbox.length > 0) {
      has_come = true;
      world_round(world, i, stops);
    }
  return has_come;
}

static void step(struct world *world, const struct plan *plan, unsigned *left) {
  uint8_t node;
  world->now++;
  if (happens(world, 80))
    begin_call(world, plan, left);
  if (happens(world, plan->kills) && (node = machine_that(world, true)) != 0)
    world_stop(world, node);
  if (happens(world, plan->starts) && (node = machine_that(world, false)) != 0)
    world_start(world, node, 4 * plan->stops);
  if (happens(world, plan->ticks) && (node = machine_that(world, true)) != 0)
    tick(world, node);
  if (happens(world, plan->leaves) && world->clients[0].is_open)
    world_leave(world, 0);
  if (happens(world, plan->moves))
    begin_move(world, plan);
  for (unsigned i = 0; i < plan->pace && deliver_one(world, plan); i++)
    if (happens(world, 128))
      rounds(world, plan->stops);
  rounds(world, plan->stops);
}

/* Starts all machines, and delivers all messages in any order, until no call is open. Those that wait, wait on. */
static void settle(struct world *world) {
  const struct plan plan = {.pace = 1000};
  world->now += 1000;
  world->slow = 0;
  world->most = MOST_MESSAGES;
  for (uint8_t i = 1; i <= MACHINES; i++)
    if (!world->machines[i].is_up && world->fault[0] == 0)
      world_start(world, i, 0);
  for (int i = 0; i < 200 && world_has_calls(world) && world->fault[0] == 0; i++) {
    for (uint8_t node = 1; node <= MACHINES && i > 0; node++)
      tick(world, node);
    while (world->fault[0] == 0 && (rounds(world, 0) || deliver_one(world, &plan)))
      continue;
  }
}

/* A node reads a name, while nothing is lost. Returns whether the read is answered. */
static bool is_read(struct world *world, uint8_t node, int name) {
  int call = world->call_count;
  world_call(world, 0, node, name, false, 0);
  settle(world);
  return world->calls[call].ended != 0 || world->fault[0] != 0;
}

/* Each node reads each name. A read may be given up if a move ends meanwhile, since nodes then drop the pieces of the
   layout that the object leaves. So it is tried again once. */
static void read_all(struct world *world, const struct plan *plan) {
  for (uint8_t node = 1; node <= MACHINES; node++)
    for (int name = 0; name < (int)plan->names && world->fault[0] == 0; name++)
      if (!is_read(world, node, name) && !is_read(world, node, name))
        world_fault(world, "all machines are up, and a read has no answer at node", node);
}

/* Draws what a run is to be like, and starts the machines. */
static struct plan begin(struct world *world, uint64_t seed, enum broken broken) {
  world_clear(world, seed * 0x2545f4914f6cdd1du);
  draw(world, 2);
  struct plan plan = draw_plan(world);
  draw_file(world);
  world->slow = one_of(world, 0, 40, 120);
  world->waits = happens(world, 128);
  world->most = 300;
  world->rewrites = one_of(world, 0, 0, 3);
  world->power = one_of(world, 0, 128, 256);
  for (uint8_t i = 1; i <= MACHINES; i++) {
    world->machines[i].number = i;
    world->machines[i].broken = broken;
    world_start(world, i, 0);
  }
  return plan;
}

void play(struct world *world, uint64_t seed, enum broken broken) {
  struct plan plan = begin(world, seed, broken);
  unsigned left = plan.calls;
  while ((left > 0 || (world_has_calls(world) && draw(world, 100) > 0)) && world->fault[0] == 0 && world->now < 20000)
    step(world, &plan, &left);
  settle(world);
  read_all(world, &plan);
  world->waits = false;
  settle(world);
  read_all(world, &plan);
}
