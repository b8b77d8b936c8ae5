/* Has each request for memory of a node refused once, as the node opens, handles frames and writes its log anew. The
   linker puts `__wrap_malloc` in the place of `malloc`, and so on. A call whose request is refused answers
   CASNODE_NO_MEMORY; the node then opens again from its log, and goes on. */
#include "machine.h"

#include <stdio.h>
#include <stdlib.h>
#include <string.h>

void *__real_malloc(size_t count);
void *__real_realloc(void *old, size_t count);
void *__wrap_malloc(size_t count);
void *__wrap_realloc(void *old, size_t count);

/* How many more requests are granted; -1 if all are. */
static long granted = -1;

static bool is_refused(void) {
  if (granted < 0)
    return false;
  return granted-- == 0;
}

void *__wrap_malloc(size_t count) { return is_refused() ? NULL : __real_malloc(count); }
void *__wrap_realloc(void *old, size_t count) { return is_refused() ? NULL : __real_realloc(old, count); }

static const char TEXT[] = "nodes 1\nn 1\nk 1\ndelta 1\nmover 1\nlater\nticks 50\n";
static struct machine machine = {.number = 1};
static char told[4096];

static void expect(bool holds, const char *what) {
  if (!holds) {
    fprintf(stderr, "library: not as expected without memory: %s\n", what);
    exit(1);
  }
}

static void take_answer(void *network, struct machine *from, const struct frame *frame) {
  (void)network, (void)from;
  answer_in(frame, told, sizeof told);
}

static void open_node(void) {
  expect(machine_open(&machine, TEXT) == CASNODE_DONE, "a node opens");
  expect(machine_carry_out(&machine, NO_STOP, take_answer, NULL), "its tasks are carried out");
}

/* Opens the node with one request refused, the first one, the second one and so on, until none is. */
static long sweep_open(void) {
  uint64_t where;
  for (long count = 0;; count++) {
    granted = count;
    uint8_t answer = casnode_open(&machine.node, (const uint8_t *)TEXT, strlen(TEXT), 1, machine.log.first,
                                  machine.log.length, &where);
    bool is_over = granted >= 0;
    granted = -1;
    expect(answer == CASNODE_DONE || (answer == CASNODE_NO_MEMORY && !is_over), "a node opens, or is refused");
    expect(answer == CASNODE_DONE || machine.node.private_pointer == NULL, "a refused open leaves the handle");
    casnode_close(&machine.node);
    if (is_over)
      return count;
  }
}

/* The same with the frames of the inbox. Between, the node opens again. */
static long sweep_handle(void) {
  size_t used;
  uint16_t other;
  for (long count = 0;; count++) {
    open_node();
    granted = count;
    uint8_t answer = casnode_handle(&machine.node, machine.inbox.first, machine.inbox.length, &used, &other);
    bool is_over = granted >= 0;
    granted = -1;
    if (is_over) {
      expect(answer == CASNODE_DONE && used == machine.inbox.length, "frames are handled with enough memory");
      machine_carry_out(&machine, NO_STOP, take_answer, NULL);
      machine_kill(&machine);
      return count;
    }
    if (answer == CASNODE_NO_MEMORY)
      expect(casnode_handle(&machine.node, machine.inbox.first, 0, &used, &other) == CASNODE_STOPPED, "a stopped node");
    else
      expect(answer == CASNODE_DONE, "a node may do without some of its memory");
    casnode_close(&machine.node);
    machine.is_up = false;
  }
}

static long sweep_rewrite(void) {
  uint8_t given = 9;
  open_node();
  for (long count = 0;; count++) {
    granted = count;
    uint8_t answer = casnode_rewrite(&machine.node, &given);
    bool is_over = granted >= 0;
    granted = -1;
    if (is_over) {
      expect(answer == CASNODE_DONE && given == 1, "a log is written anew with enough memory");
      machine_carry_out(&machine, NO_STOP, take_answer, NULL);
      machine_kill(&machine);
      return count;
    }
    expect(answer == CASNODE_NO_MEMORY && given == 9, "a refused rewriting");
  }
}

int main(void) {
  long opening, handling, rewriting;
  put_words(&machine.inbox, "client 1", "SET", "a", "hello", NULL);
  handling = sweep_handle();
  expect(strcmp(told, "+OK\r\n") == 0, "a write");
  rewriting = sweep_rewrite();
  opening = sweep_open();
  put_words(&machine.inbox, "client 2", "GET", "a", NULL);
  handling += sweep_handle();
  expect(strcmp(told, "$5\r\nhello\r\n") == 0, "a read");
  expect(opening > 5 && handling > 20 && rewriting > 2, "requests for memory are refused");
  machine_free(&machine);
  return 0;
}
