#include "register.h"

#include <limits.h>
#include <stdlib.h>

/* The calls of a value: its write, and the reads that returned it. */
struct group {
  unsigned first_end;  /* when the first of them ended */
  unsigned last_begin; /* when the last of them began */
};

static unsigned end_of(const struct call *call) { return call->ended > 0 ? call->ended : UINT_MAX; }

static void add(struct group *group, const struct call *call) {
  if (end_of(call) < group->first_end)
    group->first_end = end_of(call);
  if (call->began > group->last_begin)
    group->last_begin = call->began;
}

static bool is_answered_read(const struct call *call, int name) {
  return call->name == name && !call->is_write && call->ended > 0;
}

/* Whether each read returned no value, or that of a write that began before the read ended. */
static bool reads_follow_writes(const struct call *calls, int count, int name) {
  for (int i = 0; i < count; i++) {
    const struct call *read = &calls[i];
    if (!is_answered_read(read, name) || read->value == 0)
      continue;
    if (read->value > (unsigned)count)
      return false;
    const struct call *write = &calls[read->value - 1];
    if (!write->is_write || write->name != name || read->ended < write->began)
      return false;
  }
  return true;
}

/* A value comes before another one if a call of the first ended before one of the second began. */
static bool comes_before(const struct group *one, const struct group *other) {
  return one->first_end < other->last_begin;
}

/* Sets the groups of the values, each in the place of its value; that of no value comes first, and its write ended
   before all calls. A write without an answer whose value no read returned has a group that ends never. */
static void set_groups(const struct call *calls, int count, int name, struct group *groups) {
  groups[0] = (struct group){0, 0};
  for (int i = 1; i <= count; i++)
    groups[i] = (struct group){UINT_MAX, 0};
  for (int i = 0; i < count; i++) {
    if (calls[i].name == name && calls[i].is_write)
      add(&groups[i + 1], &calls[i]);
    if (is_answered_read(&calls[i], name))
      add(&groups[calls[i].value], &calls[i]);
  }
}

/* Leaves those groups whose calls are in each list of the calls. Returns how many there are. */
static int sure_groups(struct group *groups, int count) {
  int found = 0;
  for (int i = 0; i <= count; i++)
    if (groups[i].first_end < UINT_MAX)
      groups[found++] = groups[i];
  return found;
}

/* If some values had to come before each other in a circle, then the one of them whose first call to end ended before
   those of the others would have to come before all of them, and so there would be a circle of two. If there is none,
   the groups can be put into an order; in each group the write comes first, and then the reads as they began. */
bool register_has(const struct call *calls, int count, int name) {
  if (!reads_follow_writes(calls, count, name))
    return false;
  struct group *groups = malloc(((size_t)count + 1) * sizeof *groups);
  if (groups == NULL)
    abort();
  set_groups(calls, count, name, groups);
  int found = sure_groups(groups, count);
  bool has = true;
  for (int i = 0; i < found; i++)
    for (int j = 0; j < i; j++)
      has = has && !(comes_before(&groups[i], &groups[j]) && comes_before(&groups[j], &groups[i]));
  free(groups);
  return has;
}
