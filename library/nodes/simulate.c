/* simulate FIRST COUNT EVERY [BROKEN]: runs of five nodes of the library in this process, each drawn from a seed, from
   FIRST on, up to the first one that fails. A run fails if something was not as expected by itself, if no register
   could have the history of a name, or if memory was not given back.
   It prints each run that fails, and each whose seed is a multiple of EVERY, which 0 has none of: the line `seed SEED`,
   one call in a line as faults/nodes/check.py reads it, the lines that deploy/picture draws, `fault` with what was
   wrong, and `end` with counts. The last line is `total` with the number of the runs and the sums of their counts.
   BROKEN is `syncs`, `early` or `starts`: then the scheduler breaks what the header asks of it, as machine.h says. */
#include "pool.h"
#include "scheduler.h"

#include <stdio.h>
#include <stdlib.h>
#include <string.h>

enum { COUNTS = 8 };

struct counts {
  unsigned long long of[COUNTS];
};

static struct counts counts_of(const struct world *world) {
  unsigned answered = 0;
  for (int i = 0; i < world->call_count; i++)
    answered += world->calls[i].ended > 0;
  return (struct counts){{(unsigned)world->call_count, answered, world->given_up, world->stops, world->losses,
                          world->moves, world->rewritings, world->events}};
}

static void print_counts(const struct counts *counts) {
  for (int i = 0; i < COUNTS; i++)
    printf(" %llu", counts->of[i]);
  printf("\n");
}

static void print_calls(const struct world *world) {
  for (int i = 0; i < world->call_count; i++) {
    const struct call *call = &world->calls[i];
    char value[16] = "-", ended[16] = "-";
    if (call->value > 0)
      snprintf(value, sizeof value, "%u", call->value);
    if (call->ended > 0)
      snprintf(ended, sizeof ended, "%u", call->ended);
    printf("name-%d %s %s %u %s\n", call->name, call->is_write ? "write" : "read", value, call->began, ended);
  }
}

/* The rows of deploy/picture, with a thousandth of a second for each event. What has not ended ends with the run. */
static void print_picture(const struct world *world) {
  for (int i = 0; i < world->call_count; i++) {
    const struct call *call = &world->calls[i];
    const struct shown *it = &world->shown[i];
    unsigned ended = it->ended > 0 ? it->ended : world->events;
    const char *kind = call->is_write ? "write" : "read", *answered = call->ended > 0 ? "answered" : "unanswered";
    printf("call %d %u name-%d %s %u %.3f %.3f %s\n", it->client, it->node, call->name, kind, call->value,
           it->began / 1000.0, ended / 1000.0, answered);
  }
  for (unsigned i = 0; i < world->stops && i < MOST_STOPS; i++) {
    const struct down *down = &world->downs[i];
    unsigned ended = down->ended > 0 ? down->ended : world->events;
    printf("down %u %.3f %.3f\n", down->machine, down->began / 1000.0, ended / 1000.0);
  }
}

/* The names whose history no register could have, as bits. */
static unsigned bad_names(const struct world *world) {
  unsigned bad = 0;
  for (int name = 0; name < MOST_NAMES; name++)
    if (!register_has(world->calls, world->call_count, name))
      bad |= 1u << name;
  return bad;
}

/* Plays a run, prints it if it fails or is asked for, and adds its counts. Returns whether it passes. */
static bool run(uint64_t seed, enum broken broken, bool is_asked, struct counts *totals) {
  static struct world world;
  size_t before = pool_blocks();
  play(&world, seed, broken);
  world_free(&world);
  unsigned bad = bad_names(&world);
  struct counts counts = counts_of(&world);
  for (int i = 0; i < COUNTS; i++)
    totals->of[i] += counts.of[i];
  bool is_lost = pool_blocks() != before, passes = world.fault[0] == 0 && bad == 0 && !is_lost;
  if (passes && !is_asked)
    return true;
  printf("seed %llu\n", (unsigned long long)seed);
  print_calls(&world);
  print_picture(&world);
  if (world.fault[0] != 0)
    printf("fault %s\n", world.fault);
  for (int name = 0; name < MOST_NAMES; name++)
    if (bad & 1u << name)
      printf("fault name-%d: no register has this history\n", name);
  if (is_lost)
    printf("fault memory was not given back\n");
  printf("end");
  print_counts(&counts);
  fflush(stdout);
  return passes;
}

int main(int argc, char **argv) {
  static const char *const names[] = {"", "syncs", "early", "starts"};
  enum broken broken = SOUND;
  if (argc < 4)
    return 2;
  for (unsigned i = 1; i < 4 && argc > 4; i++)
    if (strcmp(argv[4], names[i]) == 0)
      broken = (enum broken)i;
  if (argc > 4 && broken == SOUND)
    return 2;
  uint64_t first = strtoull(argv[1], NULL, 10), count = strtoull(argv[2], NULL, 10);
  uint64_t every = strtoull(argv[3], NULL, 10);
  struct counts totals = {{0}};
  uint64_t done = 0;
  bool passes = true;
  for (; passes && done < count; done++)
    passes = run(first + done, broken, every > 0 && (first + done) % every == 0, &totals);
  printf("total %llu", (unsigned long long)done);
  print_counts(&totals);
  return 0;
}
