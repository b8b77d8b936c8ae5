/* Jerasure, over GF-Complete: a systematic code of the same k and n, so other bytes. It makes n - k fragments, the k
   blocks being the others, and gives back the blocks that are not among the last k fragments. */
#include "peers.h"
#include <jerasure.h>
#include <jerasure/reed_sol.h>
#include <stdio.h>
#include <stdlib.h>
#include <string.h>

enum { FIELD_BITS = 8, ALIGNMENT = 16 };

/* Its blocks are aligned to 16 bytes, and so is their length: those of the value are copied once, before all. */
static char *blocks[MOST], *parities[MOST];
static int block_size;

static int parity_count(const struct task *t) { return t->n - t->k; }

static int *make_matrix(const struct task *t) {
  int *matrix = reed_sol_vandermonde_coding_matrix(t->k, parity_count(t), FIELD_BITS);
  if (matrix == NULL)
    refuse_bytes(t, "Jerasure makes no matrix", 0);
  return matrix;
}

int peer_prepare(const struct task *t, uint8_t *place) {
  if (parity_count(t) == 0)
    return 0;
  block_size = (int)((t->fragment_len + ALIGNMENT - 1) / ALIGNMENT * ALIGNMENT);
  memset(place, 0, (size_t)t->n * block_size);
  for (int j = 0; j < t->n; j++) {
    char *at = (char *)place + (size_t)j * block_size;
    *(j < t->k ? &blocks[j] : &parities[j - t->k]) = at;
    size_t start = j * t->fragment_len, left = start < t->len ? t->len - start : 0;
    if (j < t->k)
      memcpy(at, t->value + (left > 0 ? start : 0), left < t->fragment_len ? left : t->fragment_len);
  }
  return 1;
}

/* With the matrix made in each call. */
void peer_encode_calls(const struct task *t, long calls) {
  for (long call = 0; call < calls; call++) {
    int *matrix = make_matrix(t);
    jerasure_matrix_encode(t->k, parity_count(t), FIELD_BITS, matrix, blocks, parities, block_size);
    free(matrix);
  }
}

/* The first n - k fragments are lost. */
void peer_decode_calls(const struct task *t, long calls) {
  int lost[MOST + 1], count = parity_count(t);
  for (int i = 0; i < count; i++)
    lost[i] = i;
  lost[count] = -1;
  for (long call = 0; call < calls; call++) {
    int *matrix = make_matrix(t);
    if (jerasure_matrix_decode(t->k, count, FIELD_BITS, matrix, 0, lost, blocks, parities, block_size) != 0)
      refuse_bytes(t, "Jerasure decodes nothing", 0);
    free(matrix);
  }
}

void peer_compare(const struct task *t) {
  peer_encode_calls(t, 1);
  for (int j = 0; j < t->k && j < parity_count(t); j++)
    memset(blocks[j], 0xA5, block_size);
  peer_decode_calls(t, 1);
  for (int j = 0; j < t->k; j++) {
    size_t start = j * t->fragment_len, left = start < t->len ? t->len - start : 0;
    if (memcmp(blocks[j], t->value + (left > 0 ? start : 0), left < t->fragment_len ? left : t->fragment_len) != 0)
      refuse_bytes(t, "a block decoded by Jerasure", j);
  }
}
