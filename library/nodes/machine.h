/* A machine with one node of the library and its log, for the programs that test nodes. The log's file is bytes in
   memory, of which the machine keeps for good what was synced. */
#ifndef MACHINE_H
#define MACHINE_H

#include "bytes.h"

#include <casnode.h>

/* Ways in which a program breaks what the header asks of it. */
enum broken {
  SOUND,
  LEAVES_OUT_SYNCS,      /* a sync of what a round appended is left out, and the task taken for done */
  ANSWERS_EARLY,         /* a round's frames all go out before its entries are appended */
  FORGETS_STARTS         /* a start's entries are appended only in front of later ones */
};

struct machine {
  uint8_t number;
  bool is_up;
  enum broken broken;
  struct casnode node;
  struct bytes log;      /* the bytes of the log's file */
  size_t synced;         /* so many of them stay, whatever happens */
  size_t uncut;          /* how long the file was before a cut that was not synced; else 0 */
  struct bytes inbox;    /* frames that the node has not handled */
  struct bytes held;     /* the entries of a start, where these are forgotten */
};

/* Where a machine stops: within the task in this place, with such a part of it done, of 256. NO_STOP: nowhere. */
struct stop {
  size_t place;
  unsigned part;
};
#define NO_STOP ((struct stop){SIZE_MAX, 0})

/* Gets each frame that a node sends. */
typedef void send_frame(void *network, struct machine *from, const struct frame *frame);

/* Opens the machine's node from its log. */
uint8_t machine_open(struct machine *machine, const char *text);

/* Carries out the tasks of the node. Returns whether all were: false after a stop. */
bool machine_carry_out(struct machine *machine, struct stop stop, send_frame *send, void *network);

/* Hands over the first bytes of the inbox. */
uint8_t machine_handle(struct machine *machine, size_t length, uint16_t *other);

/* The program ends. Its machine goes on, and so what it wrote stays. */
void machine_kill(struct machine *machine);

/* The machine loses its power: of what was not synced, so many bytes stay, of 256, and behind them perhaps zeros. */
void machine_lose_power(struct machine *machine, unsigned part, bool has_zeros, bool is_uncut);

void machine_free(struct machine *machine);

#endif
