#include "machine.h"

#include <stdlib.h>
#include <string.h>

/* The bytes of a task, in memory of just their length, so that a tool notices a byte too many. */
static uint8_t *bytes_of(struct machine *machine, size_t place, uint64_t count) {
  uint8_t *bytes = malloc(count > 0 ? count : 1);
  if (bytes == NULL || casnode_bytes(&machine->node, place, bytes, count) != CASNODE_DONE)
    abort();
  return bytes;
}

static size_t share(size_t count, unsigned part) { return part >= 256 ? count : count * part / 256; }

static void send_all(struct machine *machine, const uint8_t *bytes, size_t count, unsigned part, send_frame *send,
                     void *network) {
  struct frame frame;
  size_t end = share(count, part);
  for (size_t at = 0; at < count; at += frame.length) {
    if (!frame_at(bytes + at, count - at, &frame))
      abort();
    if (at + frame.length > end)
      return;
    send(network, machine, &frame);
  }
}

static void append(struct machine *machine, const uint8_t *bytes, size_t count, unsigned part, bool is_start) {
  if (machine->broken == FORGETS_STARTS && is_start) {
    bytes_add(&machine->held, bytes, count);
    return;
  }
  bytes_add(&machine->log, machine->held.first, machine->held.length);
  machine->held.length = 0;
  bytes_add(&machine->log, bytes, share(count, part));
}

static void sync_log(struct machine *machine, bool is_start) {
  if (machine->broken == LEAVES_OUT_SYNCS && !is_start)
    return;
  machine->synced = machine->log.length;
  machine->uncut = 0;
}

static void cut(struct machine *machine, size_t count) {
  if (count < machine->log.length)
    machine->uncut = machine->log.length;
  machine->log.length = count;
}

static void replace(struct machine *machine, const uint8_t *bytes, size_t count) {
  machine->log.length = machine->held.length = 0;
  bytes_add(&machine->log, bytes, count);
  machine->synced = count;
  machine->uncut = 0;
}

/* Carries out this part of the task. A sync, a cut and a renaming are done at once, or not at all. */
static void carry_out_task(struct machine *machine, size_t place, uint8_t kind, uint64_t count, unsigned part,
                           bool is_start, send_frame *send, void *network) {
  if (kind == CASNODE_SYNC || kind == CASNODE_CUT) {
    if (part >= 128 && kind == CASNODE_SYNC)
      sync_log(machine, is_start);
    if (part >= 128 && kind == CASNODE_CUT)
      cut(machine, count);
    return;
  }
  uint8_t *bytes = bytes_of(machine, place, count);
  if (kind == CASNODE_SEND)
    send_all(machine, bytes, count, part, send, network);
  else if (kind == CASNODE_APPEND)
    append(machine, bytes, count, part, is_start);
  else if (part >= 128)
    replace(machine, bytes, count);
  free(bytes);
}

/* Of the tasks, carries out those that send, or the others, or all. */
static bool carry_out(struct machine *machine, struct stop stop, bool sends, bool others, send_frame *send,
                      void *network) {
  bool is_start = false;
  uint8_t kind;
  uint64_t count;
  for (size_t place = 0;; place++) {
    if (casnode_task(&machine->node, place, &kind, &count) != CASNODE_DONE)
      abort();
    if (kind == CASNODE_NOTHING)
      return true;
    is_start = is_start || kind == CASNODE_CUT;
    if (!(kind == CASNODE_SEND ? sends : others))
      continue;
    carry_out_task(machine, place, kind, count, place == stop.place ? stop.part : 256, is_start, send, network);
    if (place == stop.place)
      return false;
  }
}

bool machine_carry_out(struct machine *machine, struct stop stop, send_frame *send, void *network) {
  if (machine->broken != ANSWERS_EARLY)
    return carry_out(machine, stop, true, true, send, network);
  return carry_out(machine, stop, true, false, send, network) && carry_out(machine, stop, false, true, send, network);
}

uint8_t machine_open(struct machine *machine, const char *text) {
  uint64_t where;
  /* A copy of just the log's length. */
  uint8_t *log = malloc(machine->log.length + 1);
  if (log == NULL)
    abort();
  if (machine->log.length > 0)
    memcpy(log, machine->log.first, machine->log.length);
  uint8_t answer = casnode_open(&machine->node, (const uint8_t *)text, strlen(text), machine->number, log,
                                machine->log.length, &where);
  free(log);
  machine->is_up = answer == CASNODE_DONE;
  return answer;
}

uint8_t machine_handle(struct machine *machine, size_t length, uint16_t *other) {
  size_t used;
  uint8_t *input = malloc(length + 1);
  if (input == NULL)
    abort();
  if (length > 0)
    memcpy(input, machine->inbox.first, length);
  uint8_t answer = casnode_handle(&machine->node, input, length, &used, other);
  free(input);
  if (answer == CASNODE_DONE)
    bytes_drop(&machine->inbox, used);
  return answer;
}

void machine_kill(struct machine *machine) {
  casnode_close(&machine->node);
  machine->is_up = false;
  machine->inbox.length = 0;
  machine->held.length = 0;
}

void machine_lose_power(struct machine *machine, unsigned part, bool has_zeros, bool is_uncut) {
  machine_kill(machine);
  if (is_uncut && machine->uncut > machine->log.length)
    machine->log.length = machine->uncut;
  machine->uncut = 0;
  size_t stays = machine->synced + share(machine->log.length - machine->synced, part);
  if (has_zeros && machine->log.length > stays)
    memset(machine->log.first + stays, 0, machine->log.length - stays);
  else
    machine->log.length = stays;
}

void machine_free(struct machine *machine) {
  casnode_close(&machine->node);
  bytes_free(&machine->log);
  bytes_free(&machine->inbox);
  bytes_free(&machine->held);
}
