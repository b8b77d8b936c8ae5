/* The calls that bench/coding.c compares and times: those of this repository, and those of Intel ISA-L. */
#ifndef WORKS_H
#define WORKS_H

#include "../library/coding.h"

enum { MOST = 255, LONGEST = CODING_LONGEST_VALUE };

/* One case. The fragments stand one after another, each of fragment_len bytes, and the points are those of the last k.
   */
struct task {
  int k, n;
  size_t len, fragment_len;
  const uint8_t *value, *fragments;
  uint8_t points[MOST];
  struct coding_bytes pieces[MOST];
};

/* Where the calls write that fill the caller's buffers: room for all fragments of a value. */
extern uint8_t *room;

void *memory(size_t size);
void refuse_bytes(const struct task *t, const char *what, int place);
void prepare_works(size_t most_bytes);

/* ISA-L with its matrix, inverse and tables made in each call, into the room; then the same with the instructions of
   the level that our library is built for; then with the tables kept, which the first of two calls makes. */
void isal_encode(const struct task *t);
void isal_decode(const struct task *t);
void isal_encode_level(const struct task *t);
void isal_decode_level(const struct task *t);
void isal_encode_tables(const struct task *t);
void isal_decode_tables(const struct task *t);
void isal_encode_blocks(const struct task *t);
void isal_decode_blocks(const struct task *t);

/* This repository, into the room. */
void own_encode(const struct task *t);
void own_decode(const struct task *t);

/* This repository in memory that it takes and gives back, so many calls, over one copy of the input. */
void own_encode_fresh(const struct task *t, long calls);
void own_decode_fresh(const struct task *t, long calls);

/* ISA-L in memory that is taken and given back in each call, so many calls, over one copy of the input. */
void isal_encode_fresh_calls(const struct task *t, long calls);
void isal_decode_fresh_calls(const struct task *t, long calls);

/* So many calls of the works above. */
void own_encode_calls(const struct task *t, long calls);
void own_decode_calls(const struct task *t, long calls);
void isal_encode_calls(const struct task *t, long calls);
void isal_decode_calls(const struct task *t, long calls);
void isal_encode_level_calls(const struct task *t, long calls);
void isal_decode_level_calls(const struct task *t, long calls);
void isal_encode_blocks_calls(const struct task *t, long calls);
void isal_decode_blocks_calls(const struct task *t, long calls);

/* The fragment at the lost point from the task's pieces, into the room: alone, with the value, and by ISA-L. A code
   with as many pieces as fragments has lost none of them, and makes one more. */
int lost_point(const struct task *t);
void own_repair_fragment(const struct task *t);
void isal_repair(const struct task *t);
void own_repair_fragment_calls(const struct task *t, long calls);
void own_repair_calls(const struct task *t, long calls);
void isal_repair_calls(const struct task *t, long calls);

/* With an output in the room: fragment i alone, fragment i from the task's pieces, and the outputs in fresh memory. */
void own_encode_one(const struct task *t, int i);
void own_repair(const struct task *t, int i, uint8_t *value);
void own_encode_fresh_to(const struct task *t, int i, size_t room_len);
void own_decode_fresh_to(const struct task *t, size_t room_len);

#endif
