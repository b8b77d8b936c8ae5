/* Makes each call of casnode.h where it is done and where it is refused: four nodes in one process, whose messages this
   program carries; nodes that are closed and opened again from the bytes of their logs; logs that are written anew;
   misuse. */
#include "machine.h"

#include <stdio.h>
#include <stdlib.h>
#include <string.h>

enum { NODES = 4 };
static const char FILE_TEXT[] = "nodes 1 2 3 4\nn 4\nk 2\ndelta 1\nmover 1\nlater\nticks 50\n";
static struct machine machines[NODES + 1];
static char answer[4096];
static bool is_cut_off; /* whether messages to node 4 are lost */

static void expect(bool holds, const char *what) {
  if (!holds) {
    fprintf(stderr, "library: not as expected of nodes: %s\n", what);
    exit(1);
  }
}

/* The answer is the number with which its text begins. */
static void is_refused(uint8_t answered, const char *wanted) {
  struct casnode_label text;
  casnode_text(answered, &text);
  expect(answered == atoi(wanted) && text.length == strlen(wanted) + 1, wanted);
  expect(memcmp(text.bytes, wanted, text.length) == 0 && strcmp(casnode_string(answered), wanted) == 0, wanted);
}

static void carry(void *network, struct machine *from, const struct frame *frame) {
  (void)network;
  char address[16];
  long to = number_behind(frame, "node ");
  if (number_behind(frame, "client ") == 7)
    answer_in(frame, answer, sizeof answer);
  if (to < 1 || to > NODES || !machines[to].is_up || (is_cut_off && (to == 4 || from->number == 4)))
    return;
  snprintf(address, sizeof address, "node %u", from->number);
  put_frame(&machines[to].inbox, address, frame->count, frame->rest, frame->rest_length);
}

/* All nodes handle frames until none are left. */
static void play(void) {
  uint16_t other;
  bool is_busy = true;
  while (is_busy) {
    is_busy = false;
    for (int i = 1; i <= NODES; i++) {
      struct machine *machine = &machines[i];
      if (!machine->is_up || machine->inbox.length == 0)
        continue;
      expect(machine_handle(machine, machine->inbox.length, &other) == CASNODE_DONE, "frames are handled");
      expect(other == CASNODE_NO_OTHER, "all nodes have the same cluster file");
      machine_carry_out(machine, NO_STOP, carry, NULL);
      is_busy = true;
    }
  }
}

static void open_all(void) {
  for (int i = 1; i <= NODES; i++)
    if (!machines[i].is_up) {
      machines[i].number = (uint8_t)i;
      expect(machine_open(&machines[i], FILE_TEXT) == CASNODE_DONE, "a node opens");
      machine_carry_out(&machines[i], NO_STOP, carry, NULL);
    }
}

/* Asks a node by a command of one or two words more, and expects this answer. */
static void asks(int node, const char *command, const char *name, const char *value, const char *wanted) {
  answer[0] = 0;
  put_words(&machines[node].inbox, "client 7", command, name, value, NULL);
  play();
  if (strcmp(answer, wanted) != 0)
    fprintf(stderr, "library: node %d answered: %s\n", node, answer);
  expect(strcmp(answer, wanted) == 0, wanted);
}

static void writes_and_reads(void) {
  open_all();
  asks(1, "SET", "a", "hello", "+OK\r\n");
  asks(2, "GET", "a", NULL, "$5\r\nhello\r\n");
  asks(3, "GET", "b", NULL, "$-1\r\n");
  is_cut_off = true;
  asks(3, "SET", "a", "again", "+OK\r\n");
  is_cut_off = false;
  asks(4, "GET", "a", NULL, "$5\r\nagain\r\n");
}

/* A node is closed, and opened again from its log's bytes, of which the last write lost what was not synced. */
static void opens_again(void) {
  machine_kill(&machines[2]);
  asks(1, "SET", "a", "third", "+OK\r\n");
  machine_lose_power(&machines[3], 0, false, false);
  open_all();
  machine_kill(&machines[1]);
  asks(3, "GET", "a", NULL, "$5\r\nthird\r\n");
  /* Of entries that were being appended, a first part is left, with zeros behind it. */
  bytes_add(&machines[1].log, "\x00\x00\x00", 3);
  open_all();
  asks(1, "GET", "a", NULL, "$5\r\nthird\r\n");
}

static void task_is(struct casnode *node, size_t place, uint8_t wanted) {
  uint8_t kind = 99;
  uint64_t count = 99;
  expect(casnode_task(node, place, &kind, &count) == CASNODE_DONE && kind == wanted, "the kind of a task");
}

static void writes_logs_anew(void) {
  struct machine *machine = &machines[2];
  uint8_t given = 9, kept = 9, worth = 9;
  uint64_t before, length;
  size_t old_length = machine->log.length;
  expect(casnode_should_rewrite(&machine->node, &worth) == CASNODE_DONE && worth == 0, "a short log may stay");
  expect(casnode_keep_log(&machine->node, &kept) == CASNODE_DONE && kept == 0, "there is no new log");
  casnode_log_length(&machine->node, &before);
  expect(before == old_length, "the log has the length that the node says");
  expect(casnode_rewrite(&machine->node, &given) == CASNODE_DONE && given == 1, "a log is written anew");
  task_is(&machine->node, 0, CASNODE_REPLACE);
  task_is(&machine->node, 1, CASNODE_NOTHING);
  expect(casnode_keep_log(&machine->node, &kept) == CASNODE_DONE && kept == 1, "the old log is kept");
  task_is(&machine->node, 0, CASNODE_NOTHING);
  casnode_log_length(&machine->node, &length);
  expect(length == old_length, "the old log has its length");
  expect(casnode_rewrite(&machine->node, &given) == CASNODE_DONE && given == 1, "a log is written anew again");
  machine_carry_out(machine, NO_STOP, carry, NULL);
  casnode_log_length(&machine->node, &length);
  expect(length == machine->log.length && length < old_length, "the new log is shorter");
  asks(2, "SET", "a", "fourth", "+OK\r\n");
  machine_lose_power(machine, 0, false, false);
  open_all();
  asks(2, "GET", "a", NULL, "$6\r\nfourth\r\n");
}

static uint8_t open_with(struct casnode *node, const char *text, uint8_t number, const struct bytes *log, size_t length,
                         uint64_t *where) {
  return casnode_open(node, (const uint8_t *)text, strlen(text), number, log->first, length, where);
}

static void refuses_to_open(void) {
  struct casnode node = CASNODE_CLOSED;
  struct bytes *log = &machines[3].log;
  const char *other = "nodes 1 2 3\nn 3\nk 1\ndelta 1\nmover 1\nlater\nticks 50\n";
  uint64_t where = 77;
  /* The head of an entry of the form before: the form, the length of no bytes, their checksum, and that of the head. */
  uint8_t old_head[16] = {2, 0, 0, 0, 0, 0, 0, 0, 0, 0, 0, 0, 0x49, 0x83, 0x1d, 0x3d};
  is_refused(open_with(&machines[1].node, FILE_TEXT, 1, log, 0, &where), "11 IsOpen");
  is_refused(open_with(&node, "nodes 1 2 3\nnonsense\n", 1, log, 0, &where), "2 BadFile");
  expect(where == 2, "the line with the fault");
  is_refused(open_with(&node, FILE_TEXT, 5, log, 0, &where), "3 NoNode");
  is_refused(open_with(&node, FILE_TEXT, 2, log, log->length, &where), "5 BadLog");
  is_refused(open_with(&node, other, 3, log, log->length, &where), "5 BadLog");
  expect(where == 0, "the first entry is of another cluster");
  log->first[log->length / 2] ^= 1;
  is_refused(open_with(&node, FILE_TEXT, 3, log, log->length, &where), "5 BadLog");
  expect(where > 0 && where <= log->length / 2, "the entries before the damage");
  log->first[log->length / 2] ^= 1;
  struct bytes log_of_old_form = {old_head, sizeof old_head, sizeof old_head};
  is_refused(open_with(&node, FILE_TEXT, 3, &log_of_old_form, sizeof old_head, &where), "4 OldForm");
  expect(node.private_pointer == NULL && !node.private_flag, "a refused open leaves the handle as it was");
}

static void refuses_without_a_node(void) {
  struct casnode node = CASNODE_CLOSED;
  uint8_t byte = 9, buffer[4] = "abc";
  uint16_t other = 9;
  uint64_t number = 9;
  size_t used = 9;
  is_refused(casnode_handle(&node, buffer, 3, &used, &other), "10 NotOpen");
  is_refused(casnode_task(&node, 0, &byte, &number), "10 NotOpen");
  is_refused(casnode_bytes(&node, 0, buffer, 3), "10 NotOpen");
  is_refused(casnode_log_length(&node, &number), "10 NotOpen");
  is_refused(casnode_should_rewrite(&node, &byte), "10 NotOpen");
  is_refused(casnode_rewrite(&node, &byte), "10 NotOpen");
  is_refused(casnode_keep_log(&node, &byte), "10 NotOpen");
  casnode_close(&node);
  expect(byte == 9 && number == 9 && used == 9 && other == 9 && memcmp(buffer, "abc", 4) == 0, "nothing changes");
}

static void refuses_bad_calls(void) {
  struct machine *machine = &machines[4];
  uint8_t buffer[4] = "abc", kind;
  uint16_t other = 9;
  uint64_t count;
  size_t used = 9;
  expect(casnode_handle(&machine->node, (const uint8_t *)"*2\r\n$4\r\nti", 10, &used, &other) == CASNODE_DONE,
         "a frame that is not whole");
  expect(used == 0, "no frame was handled");
  used = other = 9;
  put_words(&machine->inbox, "tick", NULL);
  size_t length = machine->inbox.length;
  expect(casnode_handle(&machine->node, machine->inbox.first, length, &used, &other) == CASNODE_DONE && used == length,
         "a tick");
  machine->inbox.length = 0;
  expect(casnode_task(&machine->node, 0, &kind, &count) == CASNODE_DONE && kind == CASNODE_SEND, "a task to send");
  is_refused(casnode_bytes(&machine->node, 0, buffer, count + 1), "12 BadBuffer");
  is_refused(casnode_bytes(&machine->node, 9, buffer, 3), "13 NoTask");
  used = other = 9;
  is_refused(casnode_handle(&machine->node, buffer, 3, &used, &other), "7 NoFrame");
  is_refused(casnode_handle(&machine->node, buffer, 0, &used, &other), "8 Stopped");
  is_refused(casnode_rewrite(&machine->node, &kind), "8 Stopped");
  expect(used == 9 && other == 9 && memcmp(buffer, "abc", 4) == 0, "a failed call leaves its numbers");
  machine_kill(machine);
  open_all();
  asks(4, "GET", "a", NULL, "$6\r\nfourth\r\n");
}

/* Gives node 2 the frames that come for it, as if from node 1. */
static void give_to_2(void *network, struct machine *from, const struct frame *frame) {
  (void)network, (void)from;
  if (number_behind(frame, "node ") == 2)
    put_frame(&machines[2].inbox, "node 1", frame->count, frame->rest, frame->rest_length);
}

/* What node 2 tells comes with the call after the one that handled a stranger's frames. */
static void tells_of_another_cluster(void) {
  static struct machine stranger = {.number = 1};
  uint16_t other;
  const char *text = "nodes 1 2\nn 2\nk 1\ndelta 1\nmover 1\nlater\nticks 50\n";
  expect(machine_open(&stranger, text) == CASNODE_DONE, "a stranger");
  machine_carry_out(&stranger, NO_STOP, give_to_2, NULL);
  for (unsigned told = 1; told <= 2; told++) {
    put_words(&stranger.inbox, told == 1 ? "client 1" : "client 2", "SET", "a", "strange", NULL);
    expect(machine_handle(&stranger, stranger.inbox.length, &other) == CASNODE_DONE, "a stranger handles a write");
    machine_carry_out(&stranger, NO_STOP, give_to_2, NULL);
    expect(machines[2].inbox.length > 0, "a stranger sends");
    expect(machine_handle(&machines[2], machines[2].inbox.length, &other) == CASNODE_DONE, "a stranger's frames");
    machine_carry_out(&machines[2], NO_STOP, carry, NULL);
    expect(machine_handle(&machines[2], 0, &other) == CASNODE_DONE, "no frames");
    expect(other == (told == 1 ? 1 : CASNODE_NO_OTHER), "another cluster file is told once");
  }
  asks(2, "GET", "a", NULL, "$6\r\nfourth\r\n");
  machine_free(&stranger);
}

int main(void) {
  writes_and_reads();
  opens_again();
  writes_logs_anew();
  refuses_to_open();
  refuses_without_a_node();
  refuses_bad_calls();
  tells_of_another_cluster();
  expect(strcmp(casnode_string(200), "Unknown") == 0, "the text of no answer");
  for (int i = 1; i <= NODES; i++)
    machine_free(&machines[i]);
  return 0;
}
