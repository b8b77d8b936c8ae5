/* A peer that codes otherwise: Jerasure's systematic code. */
#ifndef PEERS_H
#define PEERS_H

#include "works.h"

/* Copies the value's blocks to the place, with room for the other fragments, each a multiple of 16 bytes. Answers 0
   where the code has no fragment but the blocks. */
int peer_prepare(const struct task *t, uint8_t *place);

/* Codes, loses the first fragments, decodes, and compares the blocks. */
void peer_compare(const struct task *t);

/* So many calls. */
void peer_encode_calls(const struct task *t, long calls);
void peer_decode_calls(const struct task *t, long calls);

#endif
